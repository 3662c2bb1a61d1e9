// Moving through the run, and drawing everything that depends on the position.

/** Below this width the page shows one part at a time. */
const NARROW = 820;

/** What is shown now. */
const shown = {
  position: -1, state: null, before: null, events: [], packet: null, router: null, pane: "calls", zoom: 0, scale: 1,
  question: null, comparison: null, timer: 0, address: 0, overflows: false,
};

/** Goes to the state after `position` calls and shows it. */
function showPosition(position) {
  const target = Math.max(0, Math.min(callCount(), position));
  const near = Math.abs(target - shown.position) <= 8;
  setState(target);
  part("drawing").classList.toggle("moving", near);
  endQuestion();
  askHere();
  redraw();
  followMap(shown.events);
  clearTimeout(shown.address);
  shown.address = setTimeout(() => history.replaceState(null, "", "#" + shown.position), 200);
}

/** Works out the state of a position, the one before it, and the events between them. */
function setState(target) {
  if (shown.state && target === shown.position) return;
  const next = shown.state && target === shown.position + 1;
  shown.before = next ? shown.state : stateAt(Math.max(0, target - 1));
  shown.state = copyState(shown.before);
  shown.events = [];
  if (target > 0) applyCall(shown.state, target - 1, shown.events);
  shown.position = target;
}

/** Draws everything for the position that is shown. */
function redraw() {
  drawQuestion();
  drawState();
  drawStrip();
  warnOfDamage();
  drawNow();
  drawPane();
  markComparison();
  if (shown.question && innerWidth <= NARROW) showTab("table");
}

/** Draws map, tables and clock. */
function drawState() {
  drawMap();
  drawTables();
  drawClock();
  drawCursor();
}

/** Round, phase and slot. */
function drawClock() {
  const { state, position } = shown;
  part("clock-round").textContent = roundAt(position);
  part("clock-slot").textContent = state.slot;
  [...part("clock-phase").children].forEach((item, phase) => item.classList.toggle("on", phase === state.phase));
  part("position").textContent = `call ${position} of ${callCount()}`;
}

/** Says so where the state is not the one that was recorded. */
function warnOfDamage() {
  if (isRecorded(shown.state, shown.position)) return;
  const sentence = "This state is not the recorded one: the data of this page is damaged.";
  part("strip").insertAdjacentHTML("afterbegin", `<span class="left">${sentence}</span>`);
}

/** Draws the pane at the side that is open. */
function drawPane() {
  if (shown.pane === "calls") drawCallList(true);
  else if (shown.pane === "connections") drawConnections();
  else drawDetails();
}

/** Goes on or back by calls; on the way on it stops for an open question. */
function moveBy(calls) {
  const target = shown.position + calls;
  showPosition(calls > 0 ? stopForQuestion(target) : target);
}

/** Goes on or back to the start of a round. */
function moveRound(direction) {
  const round = roundAt(shown.position);
  const starts = run.roundStarts;
  if (direction > 0) return showPosition(stopForQuestion(starts[round + 1] ?? callCount()));
  return showPosition(shown.position > starts[round] ? starts[round] : starts[Math.max(0, round - 1)]);
}

/** Goes to the next call of a lane, or to the one before. */
function moveToLane(id, direction) {
  const calls = run.lanes[id];
  const last = shown.position - 1;
  const found = direction > 0 ? calls.find((number) => number > last) : calls.filter((number) => number < last).pop();
  if (found !== undefined) return showPosition(found + 1);
  const { name } = LANES.find((lane) => lane.id === id);
  part("position").textContent = `no ${direction > 0 ? "further" : "earlier"} ${name}`;
  return undefined;
}

/** The moves of the buttons. */
const MOVES = {
  first: () => showPosition(0),
  last: () => showPosition(callCount()),
  back: () => moveBy(-1),
  on: () => moveBy(1),
  "round-back": () => moveRound(-1),
  "round-on": () => moveRound(1),
};

/** Starts or stops playing. */
function setPlaying(on) {
  clearTimeout(shown.timer);
  shown.timer = 0;
  part("play").textContent = on ? "Pause" : "Play";
  if (!on) return;
  if (shown.position === callCount()) showPosition(0);
  shown.timer = setTimeout(playOn, 200);
}

/** One step of playing. */
function playOn() {
  if (shown.position >= callCount() || shown.question) return setPlaying(false);
  if (part("by-round").checked) moveRound(1);
  else moveBy(1);
  shown.timer = setTimeout(playOn, 1000 / Number(part("speed").value));
  return undefined;
}

/** Shows a packet's journey. */
function choosePacket(id) {
  Object.assign(shown, { packet: id, router: null });
  markChosen();
  drawMap();
  showPane("details");
}

/** Shows a router's queues. */
function chooseRouter(router) {
  Object.assign(shown, { packet: null, router });
  markChosen();
  drawMap();
  showPane("details");
}

/** Lets go of what was chosen. */
function chooseNothing() {
  Object.assign(shown, { packet: null, router: null });
  markChosen();
  drawMap();
  drawPane();
}

/** Opens a pane at the side. */
function showPane(name) {
  shown.pane = name;
  for (const button of part("panes").children) button.setAttribute("aria-pressed", button.dataset.pane === name);
  for (const pane of document.querySelectorAll(".pane")) pane.classList.toggle("open", pane.id === name);
  measureList();
  drawPane();
}

/** Map, both or tables. */
function showView(view) {
  document.body.dataset.view = view;
  for (const button of part("views").children) button.setAttribute("aria-pressed", button.dataset.view === view);
  fitMap();
}

/** On a narrow page: map, slots or calls. */
function showTab(tab) {
  document.body.dataset.tab = tab;
  for (const button of part("tabs").children) button.setAttribute("aria-pressed", button.dataset.tab === tab);
  fitMap();
  measureList();
  drawPane();
}

/** Light or dark. */
function showTheme(theme) {
  document.documentElement.dataset.theme = theme;
  drawTimeline();
}

/** The other of light and dark. */
function changeTheme() {
  showTheme(document.documentElement.dataset.theme === "dark" ? "light" : "dark");
}

/** Larger, smaller, or as it fits. */
function zoomMap(how) {
  shown.zoom = how === "fit" ? 0 : shown.scale * (how === "in" ? 1.25 : 0.8);
  fitMap();
}
