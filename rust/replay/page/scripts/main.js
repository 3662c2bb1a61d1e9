// Reads the recording, draws it once, and shows the position that the address asks for.

/** The recording and all that is worked out from it. */
const run = readRun(part("run").textContent);

/** What the address asks for: a position first, then theme, view, tab, pane, packet, router, predict. */
function wishes() {
  return new URLSearchParams(location.hash.slice(1).replace(/^(\d+)/, "at=$1"));
}

/** Title, note and the buttons of the lanes. */
function fillFrame() {
  part("title").textContent = part("title").title = run.title || "Replay";
  part("note").textContent = part("note").title = run.note;
  part("clock-slots").textContent = `of ${run.plan.slots}`;
  document.title = `${run.title || "Replay"} – Pandabrass`;
  part("jumps").innerHTML = LANES.filter((lane) => lane.button).map(laneButton).join("");
  part("dialog").innerHTML = dialogHtml();
}

/** The button that goes to the next call of a lane. */
function laneButton({ id, key, name, sign }) {
  return `<button data-lane="${id}" title="next ${name} (${key}), with Shift the one before">${sign} ${name}</button>`;
}

/** Draws everything for the first time. */
function begin() {
  findSides();
  tellStory();
  workOutMap();
  fillFrame();
  drawFixed();
  buildTables();
  watchInput();
  const wish = wishes();
  const dark = matchMedia("(prefers-color-scheme: dark)").matches;
  showTheme(wish.get("theme") ?? (dark ? "dark" : "light"));
  showView(wish.get("view") ?? (run.plan.routers > 6 ? "map" : "both"));
  showWish(wish);
}

/** The position and what else the address asks for. */
function showWish(wish) {
  const test = location.hash === "#selftest";
  showPosition(Number(wish.get("at") ?? 0));
  showTab(wish.get("tab") ?? "map");
  showPane(wish.get("pane") ?? "calls");
  drawTimeline();
  if (wish.has("packet")) choosePacket(Number(wish.get("packet")));
  if (wish.has("router")) chooseRouter(Number(wish.get("router")));
  if (wish.has("predict")) setPredicting(true);
  document.body.dataset.ready = Math.round(performance.now());
  if (test) selfTest();
}

begin();
