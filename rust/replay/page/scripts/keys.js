// Clicks, keys and touches: what each of them does. A key more is one entry of KEYS.

/** Keys that do one thing. */
const KEYS = {
  ArrowRight: () => moveBy(1),
  ArrowLeft: () => moveBy(-1),
  ArrowDown: () => moveRound(1),
  ArrowUp: () => moveRound(-1),
  Home: () => showPosition(0),
  End: () => showPosition(callCount()),
  " ": () => setPlaying(shown.timer === 0),
  Enter: () => pressMain(),
  1: () => showView("map"),
  2: () => showView("both"),
  3: () => showView("table"),
  g: changeTheme,
  p: () => setPredicting(!predictions.on),
  "+": () => zoomMap("in"),
  "-": () => zoomMap("out"),
  0: () => zoomMap("fit"),
  "?": () => part("dialog").showModal(),
  Escape: () => (shown.question ? skipQuestion() : chooseNothing()),
};

/** Presses the main button of a question or a comparison. */
function pressMain() {
  part("question").querySelector("button.main")?.click();
}

/** A key: a move, or the next call of a lane, with Shift the one before. */
function onKey(event) {
  if (event.ctrlKey || event.metaKey || event.altKey || part("dialog").open) return;
  if (/SELECT|INPUT|BUTTON/.test(event.target.tagName) && (event.key === " " || event.key === "Enter")) return;
  if (event.target.tagName === "SELECT") return;
  const lane = LANES.find(({ key }) => key === event.key.toLowerCase());
  if (!KEYS[event.key] && !lane) return;
  if (event.key !== " " && shown.timer) setPlaying(false);
  if (KEYS[event.key]) KEYS[event.key]();
  else moveToLane(lane.id, event.shiftKey ? -1 : 1);
  event.preventDefault();
}

/** What a click on an element with such an attribute does; the first that fits. */
const CLICKS = [
  ["[data-move]", (element) => { setPlaying(false); MOVES[element.dataset.move](); }],
  ["[data-lane]", (element, event) => onLane(element.dataset.lane, event.shiftKey)],
  ["button[data-view]", (element) => showView(element.dataset.view)],
  ["button[data-tab]", (element) => showTab(element.dataset.tab)],
  ["[data-pane]", (element) => showPane(element.dataset.pane)],
  ["[data-zoom]", (element) => zoomMap(element.dataset.zoom)],
  ["#play", () => setPlaying(shown.timer === 0)],
  ["#predict", () => setPredicting(!predictions.on)],
  ["#theme", changeTheme],
  ["#help", () => part("dialog").showModal()],
  ["#close", () => part("dialog").close()],
  ["#answer", answerQuestion],
  ["#skip", skipQuestion],
  ["#go-on", () => moveBy(1)],
  ["#next-question", () => showPosition(shown.position)],
  ["[data-journey]", (element, event) => { event.preventDefault(); choosePacket(Number(element.dataset.journey)); }],
  ["[data-call]", (element) => { setPlaying(false); showPosition(Number(element.dataset.call) + 1); }],
  ["[data-packet]", (element) => choosePacket(Number(element.dataset.packet))],
  ["td[data-entry]", (element) => onCell(Number(element.dataset.entry))],
  ["[data-connection]", (element) => chooseConnection(Number(element.dataset.connection))],
  [".router[data-router]", (element) => chooseRouter(Number(element.dataset.router))],
];

/** A click anywhere. */
function onClick(event) {
  for (const [selector, action] of CLICKS) {
    const element = event.target.closest(selector);
    if (!element) continue;
    action(element, event);
    if (element.tagName === "BUTTON" && event.detail > 0) element.blur();
    return;
  }
}

/** A click on the button of a lane. */
function onLane(id, back) {
  setPlaying(false);
  moveToLane(id, back ? -1 : 1);
}

/** A click on a cell: an answer while the student is asked, else its owner. */
function onCell(entry) {
  if (shown.question) clickEntry(entry);
  else if (shown.state.owners[entry] >= 0) choosePacket(lastOfSetUp(shown.state.owners[entry]));
}

/** A set-up's tear-down where there is one, else itself. */
function lastOfSetUp(id) {
  const { child } = run.journeys.get(id);
  return child !== undefined && run.journeys.get(child).steps[0].call < shown.position ? child : id;
}

/** Shows the last packet of a connection. */
function chooseConnection(connection) {
  const id = lastPacketOf(connection);
  if (id !== null) choosePacket(id);
}

/** Dragging along the timeline. */
function watchTimeline() {
  const timeline = part("timeline");
  let dragging = false;
  timeline.addEventListener("pointerdown", (event) => {
    dragging = true;
    setPlaying(false);
    timeline.setPointerCapture(event.pointerId);
    showPosition(positionUnder(event.clientX));
  });
  timeline.addEventListener("pointermove", (event) => { if (dragging) showPosition(positionUnder(event.clientX)); });
  timeline.addEventListener("pointerup", () => { dragging = false; });
}

/** Connects everything. */
function watchInput() {
  document.addEventListener("keydown", onKey);
  document.addEventListener("click", onClick);
  watchTimeline();
  part("calls").addEventListener("scroll", onListScroll);
  const allSides = part("all-sides");
  allSides.addEventListener("change", () => part("blocks").classList.toggle("all-sides", allSides.checked));
  addEventListener("resize", () => { drawTimeline(); drawCursor(); });
  new ResizeObserver(fitMap).observe(part("map-scroll"));
  new ResizeObserver(onListResize).observe(part("calls"));
}

/** Keys, as HTML. */
function keyHtml(...names) {
  return names.map((name) => `<kbd>${name}</kbd>`).join(" ");
}

/** What the dialog says of keys. */
function keySentences() {
  const lanes = LANES.map((lane) => `${keyHtml(lane.key)} ${lane.name}`).join(", ");
  return [
    `${keyHtml("←", "→")} a call, ${keyHtml("↑", "↓")} a round, ${keyHtml("Home", "End")}, ${keyHtml("space")} play`,
    `next ${lanes}; with ${keyHtml("Shift")} the one before`,
    `${keyHtml("1", "2", "3")} map, both, tables; ${keyHtml("+", "−", "0")} larger, smaller, fit`,
    `${keyHtml("p")} predict first, ${keyHtml("Enter")} show the answer, ${keyHtml("Esc")} skip`,
    `${keyHtml("Esc")} lets go of what is chosen; ${keyHtml("g")} light or dark`,
  ];
}

/** What the dialog says of signs. */
function signSentences() {
  const looks = { S: "full, points on", T: "dashed, points on", A: "full, points back", N: "hollow, points back" };
  return [
    ...Object.entries(looks).map(([kind, look]) => `<b>${KINDS[kind].sign}</b> ${KINDS[kind].term}: ${look}`),
    "The letter is the connection: active, passive and start slot, in the order of the launches.",
    "A dot at a packet's tip: it is picked. ●○ beside an active: allowance left and spent.",
    "A bar across a side's way out: its entry for the current slot is booked, nobody leaves by it.",
    "U, Q, F and K are the documents' queues: Q1 holds what came in by side 1 and stands at the unit, " +
      "F1+ the set-ups and tear-downs from the unit to side 1, F1✕ its NACKs, K·1 the answers that cross to side 1.",
  ];
}

/** The dialog with keys and signs. */
function dialogHtml() {
  const list = (sentences) => `<ul>${sentences.map((sentence) => `<li>${sentence}</li>`).join("")}</ul>`;
  return `<h2>Keys</h2>${list(keySentences())}<h2>Signs</h2>${list(signSentences())}` +
    `<h2>Cells</h2><p class="legend">${legendHtml()}</p><p class="close"><button id="close">Close</button></p>`;
}
