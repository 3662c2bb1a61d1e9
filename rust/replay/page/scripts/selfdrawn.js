// The self-test of what is drawn: packets, cells, clock, labels. It reads the drawing, not what drew it.

/** The signs of packets and of holds, written down again. */
const EXPECTED = {
  signs: { S: "+", T: "−", A: "✓", N: "✕" },
  holds: {
    a: ["", "accepted"], c: ["−", "closing"], w: ["+", "underway"], l: ["✕", "leftover"], d: ["−", "teardown"],
    f: ["!", "forgotten"],
  },
};

/** Every packet is drawn once, with its sign and letter, in its place. */
function checkPackets(position) {
  const groups = drawn.layer.querySelectorAll("[data-packet]");
  const { packets } = shown.state;
  report.packets += groups.length;
  must(groups.length === packets.size, position, `${groups.length} packets drawn, ${packets.size} in the state`);
  for (const group of groups) {
    const packet = packets.get(Number(group.dataset.packet));
    const name = `packet ${group.dataset.packet}`;
    must(packet !== undefined, position, `${name} is drawn and is not in the state`);
    if (!packet) continue;
    must(isOfConnection(packet), position, `${name} is not of connection ${letterOf(packet.connection)}`);
    must(isDressed(group, packet), position, `${name} is drawn as another`);
    must(isInPlace(group, packet), position, `${name} is drawn in a wrong place`);
  }
}

/** A packet's slot and hub lead back to its connection's start slot; a marked NACK's no longer do. */
function isOfConnection(packet) {
  const { slot } = run.connections[packet.connection];
  const behind = packet.kind === "T" ? hopsBehind(shown.state, packet) : packet.hub;
  const marked = packet.kind === "N" && placeOf(packet.place).spot === "active-in";
  return marked || (packet.slot - behind - slot) % run.plan.slots === 0;
}

/** Sign, letter, direction and picked mark of a packet. */
function isDressed(group, packet) {
  const [outline, text] = group.children;
  const onward = packet.kind === "S" || packet.kind === "T";
  const pointing = outline.getAttribute("d").startsWith(onward ? "M-17" : "M17");
  const written = EXPECTED.signs[packet.kind] + run.connections[packet.connection].letter;
  const picked = group.classList.contains("picked") === shown.state.picked.has(packet.id);
  return text.textContent === written && pointing && picked;
}

/** Whether a packet is drawn within its tray or on its wire. */
function isInPlace(group, packet) {
  const found = /translate\(([-\d.]+)px, ?([-\d.]+)px\)/.exec(group.style.transform);
  const place = placeOf(packet.place);
  const [x, y] = SPOTS[place.spot].point(place);
  return found !== null && Math.abs(found[1] - x) <= 8 && Math.abs(found[2] - y) <= 10;
}

/** As many cells are drawn booked as the table has; in a full check each cell is compared. */
function checkCells(position, full) {
  const booked = shown.state.table.filter((side) => side !== 4).length;
  const found = part("blocks").querySelectorAll("td.booked").length;
  report.booked += found;
  must(found === booked, position, `${found} cells drawn booked, ${booked} in the table`);
  if (!full) return;
  report.tables += 1;
  for (const cell of part("blocks").querySelectorAll("td")) checkCell(position, cell, Number(cell.dataset.entry));
  for (const head of part("blocks").querySelectorAll("th.free")) checkRow(position, head, Number(head.dataset.row));
}

/** One cell against the state: owner's sign and letter, pattern, current slot. */
function checkCell(position, cell, entry) {
  const { state } = shown;
  const [sign, style] = EXPECTED.holds[state.holds[entry]] ?? ["", ""];
  const owner = run.journeys.get(state.owners[entry]);
  const text = owner ? sign + run.connections[owner.connection].letter : "";
  const right = cell.textContent === text && (!style || cell.classList.contains(style));
  must(right, position, `the cell of ${entryText(entry)} shows '${cell.textContent}'`);
  const current = entry % run.plan.slots === state.slot;
  must(cell.classList.contains("current") === current, position, `the cell of ${entryText(entry)} has a wrong frame`);
}

/** The count beside a row, and the ring at a last free entry. */
function checkRow(position, head, row) {
  const { slots } = run.plan;
  const free = shown.state.table.slice(row * slots, (row + 1) * slots).filter((side) => side === 4).length;
  const text = free === slots ? "" : free === 1 ? "1 kept" : `${free} free`;
  must(head.textContent === text, position, `the row of ${entryText(row * slots)} says '${head.textContent}'`);
  const rings = [...head.parentElement.querySelectorAll("td.last")];
  const atFree = rings.every((cell) => shown.state.table[cell.dataset.entry] === 4);
  const right = rings.length === (free === 1 ? 1 : 0) && atFree;
  must(right, position, `the row of ${entryText(row * slots)} has a wrong ring`);
}

/** Round, phase and slot. */
function checkClock(position) {
  const call = run.calls[position - 1];
  if (position === 0) report.round = 0;
  else if (call.letter === "W" && !call.refusal) report.round += 1;
  const { phase, slot } = shown.state;
  must(part("clock-round").textContent === String(report.round), position, "the clock has another round");
  must(part("clock-slot").textContent === String(slot), position, "the clock has another slot");
  must(part("clock-phase").children[phase].classList.contains("on"), position, "the clock has another phase");
  must(slot === report.round % run.plan.slots, position, "the slot is not the round modulo S");
}

/** Names on the map are within it and do not overlap. */
function checkLabels() {
  fitMap();
  const room = part("drawing").getBoundingClientRect();
  const labels = [...part("drawing").querySelectorAll(".router-name,.interface-name,.side-number")]
    .map((label) => ({ text: label.textContent, box: label.getBoundingClientRect() }))
    .filter(({ box }) => box.width > 0);
  for (const { text, box } of labels) {
    const [left, right] = [box.left >= room.left - 1, box.right <= room.right + 1];
    const [above, below] = [box.top >= room.top - 1, box.bottom <= room.bottom + 1];
    must(left && right && above && below, callCount(), `the name '${text}' leaves the map`);
  }
  labels.forEach((one, at) => labels.slice(at + 1).forEach((other) => {
    must(areApart(one.box, other.box), callCount(), `the names '${one.text}' and '${other.text}' overlap`);
  }));
}

/** Queues have trays of their own, but for K of one side, within the router's box and apart from each other. */
function checkTrays() {
  const point = (place) => SPOTS[place.spot].point(place);
  drawn.routers.forEach(({ trays }, router) => {
    const boxes = [...trays.querySelectorAll(".tray")].map((tray) => tray.getBBox());
    const places = run.places.filter((place) => place.router === router && !isWire(place) && isJoined(place));
    const spots = new Set(places.map((place) => point(place).join()));
    must(boxes.length === spots.size, callCount(), `${nameOf.router(router)} has ${boxes.length} trays`);
    const [x, y] = run.map.centres[router];
    const apart = (one, other) => one.x + one.width <= other.x || other.x + other.width <= one.x ||
      one.y + one.height <= other.y || other.y + other.height <= one.y;
    boxes.forEach((one, at) => {
      const inside = Math.abs(one.x + one.width / 2 - x) + one.width / 2 < SIZE.box &&
        Math.abs(one.y + one.height / 2 - y) + one.height / 2 < SIZE.box;
      const alone = boxes.slice(at + 1).every((other) => apart(one, other));
      must(inside && alone, callCount(), `trays of ${nameOf.router(router)} overlap or leave its box`);
    });
  });
}

/** Whether two boxes do not overlap; lines of text have some room above and below. */
function areApart(one, other) {
  return one.right <= other.left + 1 || other.right <= one.left + 1 ||
    one.bottom <= other.top + 3 || other.bottom <= one.top + 3;
}

/** No text is smaller than ten points. */
function checkSizes() {
  for (const element of document.querySelectorAll("svg text, td, th, button, label, span, p, li, i")) {
    if (!element.textContent || element.getClientRects().length === 0) continue;
    const size = parseFloat(getComputedStyle(element).fontSize) * (element.closest("svg") ? shown.scale : 1);
    must(size >= 9.99, callCount(), `'${element.textContent.slice(0, 20)}' has ${size.toFixed(1)} points`);
  }
}
