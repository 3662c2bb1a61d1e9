"use strict";
// What stops the page: a message over the page that says what is wrong, and a self-test that failed.

/** Why the recording cannot be shown, in a plain sentence. */
class Damage extends Error {}

/** Stops the page with a sentence. */
function stop(sentence) {
  throw new Damage(sentence);
}

/** Shows a failure over the page; the self-test reads it from here too. */
function showFailure(sentence) {
  const box = document.createElement("pre");
  box.id = "selftest";
  box.className = "failure";
  box.textContent = "FAIL " + sentence + "\nThis page cannot show its run. Make it again with 'pandabrass replay'.";
  document.title = "FAIL " + sentence;
  document.body.append(box);
}

addEventListener("error", (event) => {
  const sentence = event.error ? event.error.message : event.message;
  showFailure(sentence || "a script of the page failed");
});
