// Predict first: after a decline the tables are hidden and the student says which entries stay booked for
// the declined set-up; then the page shows them and compares.

/** What was answered so far: by call and packet whether it was right, null where it was skipped. */
const predictions = { on: false, answers: new Map(), marked: [] };

/** The name of a question: the call that declined, and the packet. */
function questionKey(number, id) {
  return `${number} ${id}`;
}

/** Turns predicting on or off. */
function setPredicting(on) {
  predictions.on = on;
  part("predict").setAttribute("aria-pressed", on);
  if (!on) endQuestion();
  showPosition(shown.position);
}

/** The next packet of that call that is not asked for yet. */
function openDecline(number) {
  const declined = run.declines.get(number) ?? [];
  return declined.find((packet) => !predictions.answers.has(questionKey(number, packet.id)));
}

/** The first position on the way from here to `target` where a question is open; else `target`. */
function stopForQuestion(target) {
  if (!predictions.on) return target;
  const number = run.lanes.decline.find((call) => call >= shown.position && call < target && openDecline(call));
  return number === undefined ? target : number + 1;
}

/** Asks, where the call before this position declined a set-up that was not asked for yet. */
function askHere() {
  const packet = predictions.on && shown.position > 0 ? openDecline(shown.position - 1) : undefined;
  shown.question = packet ? { packet, clicked: new Set() } : null;
}

/** The entries that the declined set-up holds. */
function heldEntries(id) {
  const held = new Set();
  shown.state.owners.forEach((owner, entry) => {
    const hold = shown.state.holds[entry];
    if (owner === id && (hold === "l" || hold === "d")) held.add(entry);
  });
  return held;
}

/** Draws the question, or the comparison after it. */
function drawQuestion() {
  const box = part("question");
  document.body.classList.toggle("asking", Boolean(shown.question));
  box.hidden = !shown.question && !shown.comparison;
  if (shown.question) box.innerHTML = questionHtml(shown.question);
  else if (shown.comparison) box.innerHTML = comparisonHtml(shown.comparison);
}

/** The question with what is known of the NACK. */
function questionHtml({ packet, clicked }) {
  const routers = walkOf(packet).map((hop) => `${html.router(hop.router)} side ${hop.side}`);
  const answer = `<button id="answer" class="main">Show (${count(clicked.size, "entry", "entries")})</button>`;
  return `<p><b>${chip(packet.connection)} was declined. Which entries stay booked for it?</b> ` +
    `Its NACK has slot ${packet.slot}, hub ${packet.hub}; its walk leaves ${listed(routers, 6, ", then ")}. ` +
    `Click cells of the slot tables, or none.</p><span class="group">${answer}<button id="skip">Skip</button></span>`;
}

/** A click on a cell while the student is asked. */
function clickEntry(entry) {
  const { clicked } = shown.question;
  if (clicked.has(entry)) {
    clicked.delete(entry);
    cells.byEntry[entry].cell.classList.remove("guess");
  } else {
    clicked.add(entry);
    markCell(entry, "guess");
  }
  drawQuestion();
}

/** Shows the tables and compares them with what was clicked. */
function answerQuestion() {
  const { packet, clicked } = shown.question;
  const held = heldEntries(packet.id);
  const comparison = {
    packet,
    right: [...clicked].filter((entry) => held.has(entry)),
    missed: [...held].filter((entry) => !clicked.has(entry)),
    wrong: [...clicked].filter((entry) => !held.has(entry)),
  };
  const good = comparison.missed.length === 0 && comparison.wrong.length === 0;
  predictions.answers.set(questionKey(shown.position - 1, packet.id), good);
  shown.question = null;
  shown.comparison = comparison;
  redraw();
}

/** Leaves a question without an answer. */
function skipQuestion() {
  predictions.answers.set(questionKey(shown.position - 1, shown.question.packet.id), null);
  endQuestion();
  askHere();
  redraw();
}

/** Takes question and comparison off the page. */
function endQuestion() {
  shown.question = null;
  shown.comparison = null;
}

/** What was right, missed and wrong, and the rule. */
function comparisonHtml({ packet, right, missed, wrong }) {
  const good = missed.length === 0 && wrong.length === 0;
  const group = (word, entries, text) => `${word}: ${listed(entries.map(text), 4, "; ")}.`;
  const parts = [`<b>${good ? "Right." : "Not quite."}</b>`, ruleSentence(packet)];
  if (right.length > 0) parts.push(group("✓ right", right, entryText));
  if (missed.length > 0) parts.push(group("○ missed", missed, entryText));
  if (wrong.length > 0) parts.push(group("✕ not", wrong, wrongText));
  const [id, word] = openDecline(shown.position - 1) ? ["next-question", "Next question"] : ["go-on", "Go on"];
  return `<p>${parts.join(" ")} <span class="dim">${scoreText()}</span></p>` +
    `<span class="group"><button id="${id}" class="main">${word}</button></span>`;
}

/** The rule: a NACK's hub says how many routers of the walk stay booked. */
function ruleSentence(packet) {
  if (packet.hub === 0) return "Hub 0: nothing was booked, nothing stays.";
  const stays = packet.hub === 1 ? "stays" : "stay";
  const { slot } = run.connections[packet.connection];
  const routers = count(packet.hub, "router");
  return `Hub ${packet.hub}: the first ${routers} of its walk ${stays} booked, from slot ${slot} on.`;
}

/** An entry that was clicked and is not the declined set-up's. */
function wrongText(entry) {
  const owner = ownerOf(shown.state, entry);
  return entryText(entry) + (owner < 0 ? " is free" : ` is ${chip(owner)}'s`);
}

/** How many predictions were right. */
function scoreText() {
  const answers = [...predictions.answers.values()].filter((right) => right !== null);
  return `${answers.filter(Boolean).length} of ${answers.length} right so far.`;
}

/** Marks the cells of a comparison: right, missed, not. */
function markComparison() {
  const marks = ["guess", "right", "missed", "wrong"];
  for (const cell of predictions.marked) cell.classList.remove(...marks);
  predictions.marked = [];
  for (const mark of shown.comparison ? marks.slice(1) : []) {
    for (const entry of shown.comparison[mark]) markCell(entry, mark);
  }
}

/** Marks a cell, and remembers it. */
function markCell(entry, mark) {
  const { cell } = cells.byEntry[entry];
  cell.classList.add(mark);
  predictions.marked.push(cell);
}
