// The map: boxes, wires and trays are drawn once; packets, bars and allowances for each state.

/** What the drawing keeps of the elements it changes. */
const drawn = {
  wires: new Map(), routers: [], bars: [], allowances: [], packets: new Map(), counts: new Map(), layer: null,
};

/** Makes an element of the drawing. */
function svgElement(name, attributes, parent, text) {
  const element = document.createElementNS("http://www.w3.org/2000/svg", name);
  for (const [key, value] of Object.entries(attributes)) element.setAttribute(key, value);
  if (text !== undefined) element.textContent = text;
  if (parent) parent.append(element);
  return element;
}

/** Makes a rectangle around a point. */
function svgBox([x, y], [width, height], attributes, parent) {
  return svgElement("rect", { x: x - width / 2, y: y - height / 2, width, height, ...attributes }, parent);
}

/** A name that fits its room; the whole one is in the title. */
function shortName(name, most) {
  return name.length > most ? name.slice(0, most - 1) + "…" : name;
}

/** Draws what stays. */
function drawFixed() {
  const drawing = part("drawing");
  drawing.setAttribute("viewBox", `0 0 ${run.map.width} ${run.map.height}`);
  drawing.innerHTML = '<defs><marker id="arrow" viewBox="0 0 8 8" refX="7" refY="4" markerWidth="9" markerHeight="9" ' +
    'markerUnits="userSpaceOnUse" orient="auto-start-reverse"><path d="M0,0.6L8,4L0,7.4z"/></marker></defs>';
  const [wires, boxes] = [svgElement("g", {}, drawing), svgElement("g", {}, drawing)];
  run.places.forEach((place) => drawWire(place, wires));
  run.map.centres.forEach((_, router) => drawRouter(router, boxes));
  run.map.actives.forEach((joined, number) => drawInterface("active", number, joined, boxes));
  run.map.passives.forEach((joined, number) => drawInterface("passive", number, joined, boxes));
  drawn.layer = svgElement("g", {}, drawing);
  run.points = run.places.map((place) => SPOTS[place.spot].point(place));
  for (const place of run.places) if (!isWire(place) && place.router !== undefined) drawTray(place);
}

/** A wire with its arrow; the two wires of a unit are inside its box and not drawn. */
function drawWire(place, layer) {
  const curve = isWire(place) ? wireCurve(place) : null;
  if (!curve) return;
  const line = `M${curve[0]}C${curve[1]} ${curve[2]} ${curve[3]}`;
  const path = svgElement("path", { class: "wire", d: line, "marker-end": "url(#arrow)" }, layer);
  svgElement("title", {}, path, place.name);
  drawn.wires.set(place.number, path);
}

/** A router: its box, its unit, its name, and a number and a bar for each joined side. */
function drawRouter(router, layer) {
  const group = svgElement("g", { class: "router", "data-router": router }, layer);
  const centre = run.map.centres[router];
  svgBox(centre, [2 * SIZE.box, 2 * SIZE.box], { rx: 7, class: "router-box" }, group);
  svgBox(centre, SIZE.unit, { rx: 8, class: "unit" }, group);
  drawn.routers[router] = { group, trays: svgElement("g", {}, group) };
  drawRouterName(router, group);
  run.plan.joints[router].forEach(([kind], side) => {
    if (kind !== JOINT.nothing) drawSide(router, side, group);
  });
}

/** A router's name, left above its box; a long one goes out to the left, away from packets on the wires. */
function drawRouterName(router, group) {
  const [x, y] = run.map.centres[router];
  const name = nameOf.router(router);
  const wide = name.length > 3;
  const place = { x: wide ? x - 2 * SIZE.lane - 3 : x - SIZE.box + 2, y: y - SIZE.box - 6 };
  const anchor = wide ? "end" : "start";
  const text = svgElement("text", { ...place, class: "router-name", "text-anchor": anchor }, group, shortName(name, 8));
  svgElement("title", {}, text, name);
}

/** The number of a side, and the bar that shows that its entry for the current slot is booked. */
function drawSide(router, side, group) {
  const edge = run.map.edges[router][side];
  const [from, to] = [pointAt(router, edge, SIZE.box, SIZE.lane - 6), pointAt(router, edge, SIZE.box, SIZE.lane + 8)];
  const bar = svgElement("line", { x1: from[0], y1: from[1], x2: to[0], y2: to[1], class: "bar" }, group);
  svgElement("title", {}, bar, `side ${side}: the entry for the current slot is booked, nobody leaves by it`);
  drawn.bars.push({ bar, router, side });
  const [x, y] = pointAt(router, edge, SIZE.box + SIZE.number, 0);
  svgElement("circle", { cx: x, cy: y, r: 8.5, class: "side" }, group);
  svgElement("text", { x, y: y + 5, class: "side-number" }, group, side);
}

/** The tray of a queue at a router; queues of one spot share a tray. */
function drawTray(place) {
  const { group, trays } = drawn.routers[place.router];
  const { side } = place;
  if (!isJoined(place)) return;
  const key = [place.spot, side].join();
  if (group.querySelector(`[data-tray="${key}"]`)) return;
  const [x, y] = run.points[place.number];
  const tray = svgBox([x, y], SIZE.tray, { rx: 4, class: "tray", "data-tray": key }, trays);
  svgElement("title", {}, tray, place.name);
  svgElement("text", { x, y: y + 4, class: "tray-label" }, trays, place.label);
}

/** An interface: an active is squared, a passive round; its name beside it. */
function drawInterface(kind, number, joined, layer) {
  const { middle: [x, y], width, height, edge } = interfaceBox(joined);
  const name = nameOf[kind](number);
  const look = { rx: kind === "active" ? 2 : 13, class: `interface ${kind}` };
  svgElement("title", {}, svgBox([x, y], [width, height], look, layer), `${kind} ${number}, ${name}`);
  const [above, below] = [y - height / 2 - 6, y + height / 2 + 15];
  const label = (at, text) => svgElement("text", { x, y: at, class: "interface-name" }, layer, text);
  const written = label(edge === 1 ? below : above, shortName(name, 11));
  if (kind === "passive") return;
  drawn.allowances[number] = edge % 2 === 0 ? label(below, "") : svgElement("tspan", { dx: 5 }, written);
}

/** The outline of a packet: it points on to the passive, or back to the active. */
const OUTLINES = { onward: "M-17,-9.5H10L17,0L10,9.5H-17Z", back: "M17,-9.5H-10L-17,0L-10,9.5H17Z" };

/** Draws the packets, bars and allowances of a state. */
function drawMap() {
  const { state } = shown;
  const stacks = new Map();
  for (let number = 0; number < run.places.length; number += 1) {
    for (const id of state.held[number]) drawPacket(state.packets.get(id), number, stacks);
  }
  for (const [id, entry] of drawn.packets) {
    if (!state.packets.has(id)) {
      entry.group.remove();
      drawn.packets.delete(id);
    }
  }
  drawCounts(stacks);
  drawBars(state);
  drawAllowances(state);
}

/** The stack of a place: crossing answers of one side share a tray. */
function stackKey(place) {
  return place.spot === "cross" ? `cross ${place.router} ${place.side}` : place.number;
}

/** A packet in its place, a little off where others are before it. */
function drawPacket(packet, number, stacks) {
  const key = stackKey(run.places[number]);
  const depth = stacks.get(key)?.count ?? 0;
  stacks.set(key, { count: depth + 1, number });
  const entry = drawn.packets.get(packet.id) ?? newPacket(packet);
  const [x, y] = run.points[number];
  const offset = Math.min(depth, 2);
  const transform = `translate(${(x + offset * 2).toFixed(1)}px,${(y - offset * 3).toFixed(1)}px)`;
  if (entry.transform !== transform) {
    entry.transform = transform;
    entry.group.style.transform = transform;
  }
  const picked = shown.state.picked.has(packet.id);
  const look = [packet.kind, packet.slot, packet.hub, number, depth, picked, shown.packet === packet.id].join();
  if (entry.look !== look) dressPacket(entry, packet, look, picked, depth);
}

/** The elements of a packet that is new on the map. */
function newPacket(packet) {
  const group = svgElement("g", { class: "packet", "data-packet": packet.id }, drawn.layer);
  const entry = { group, outline: svgElement("path", {}, group), text: svgElement("text", { y: 5 }, group),
    title: svgElement("title", {}, group), dot: svgElement("circle", { r: 4, class: "picked-dot" }, group) };
  drawn.packets.set(packet.id, entry);
  return entry;
}

/** Outline, colour, sign and letter of a packet. */
function dressPacket(entry, packet, look, picked, depth) {
  const kind = KINDS[packet.kind];
  const [colour, ink] = colourOf(packet.connection);
  entry.look = look;
  entry.outline.setAttribute("d", kind.onward ? OUTLINES.onward : OUTLINES.back);
  const fill = kind.full ? colour : "var(--paper)";
  const dashes = packet.kind === "T" ? "4 2.5" : "none";
  entry.outline.style.cssText = `fill:${fill};stroke:${colour};stroke-dasharray:${dashes}`;
  entry.text.textContent = kind.sign + letterOf(packet.connection);
  entry.text.style.fill = kind.full ? ink : "var(--ink)";
  entry.text.setAttribute("x", kind.onward ? -2 : 2);
  if (entry.text.textContent.length > 3) squeeze(entry.text);
  entry.dot.setAttribute("cx", kind.onward ? 17 : -17);
  entry.title.textContent = packetTitle(packet, picked);
  const chosen = shown.packet === packet.id ? " chosen" : "";
  entry.group.setAttribute("class", "packet" + chosen + (picked ? " picked" : ""));
  Object.assign(entry.group.dataset, { kind: packet.kind, place: packet.place });
  if (depth > 0) drawn.layer.prepend(entry.group);
}

/** Makes a text narrower that is too long for a packet. */
function squeeze(text) {
  text.setAttribute("textLength", 27);
  text.setAttribute("lengthAdjust", "spacingAndGlyphs");
}

/** A packet in words. */
function packetTitle(packet, picked) {
  const marked = packet.kind === "N" && packet.hub === 0 ? " (marked)" : "";
  const pair = `${nameOf.active(packet.active)} → ${nameOf.passive(packet.passive)}`;
  return `${KINDS[packet.kind].term} ${letterOf(packet.connection)}: ${pair}, ` +
    `slot ${packet.slot}, hub ${packet.hub}${marked}, in ${placeOf(packet.place).name}${picked ? ", picked" : ""}`;
}

/** How many packets stand in a tray, where they cannot all be seen. */
function drawCounts(stacks) {
  for (const [key, text] of drawn.counts) {
    if ((stacks.get(key)?.count ?? 0) < 3) {
      text.remove();
      drawn.counts.delete(key);
    }
  }
  for (const [key, { count: packets, number }] of stacks) {
    if (packets < 3) continue;
    const [x, y] = run.points[number];
    const place = { x: x + 26, y: y - 10, class: "count" };
    if (!drawn.counts.has(key)) drawn.counts.set(key, svgElement("text", place, drawn.layer));
    drawn.counts.get(key).textContent = "×" + packets;
  }
}

/** A bar across each side whose entry for the current slot is booked; hidden while the student is asked. */
function drawBars(state) {
  for (const item of drawn.bars) {
    const entry = entryNumber(item.router, item.side, state.slot);
    const owner = isBooked(state, entry) && !shown.question ? ownerOf(state, entry) : -1;
    if (item.owner === owner) continue;
    item.owner = owner;
    item.bar.classList.toggle("on", owner >= 0);
    item.bar.style.stroke = owner >= 0 ? colourOf(owner)[0] : "";
  }
}

/** Each active's allowance: ● left, ○ spent. */
function drawAllowances(state) {
  drawn.allowances.forEach((text, active) => {
    const left = state.allowances[active];
    const dots = "●".repeat(left) + "○".repeat(Math.max(0, run.plan.allowance - left));
    if (text.textContent !== dots) text.textContent = dots;
  });
}

/** Marks the wires of the chosen packet's journey, and the chosen router. */
function markChosen() {
  const journey = shown.packet === null ? null : run.journeys.get(shown.packet);
  const places = new Set(journey ? journey.steps.map((step) => step.place) : []);
  for (const [number, path] of drawn.wires) path.classList.toggle("on-journey", places.has(number));
  drawn.routers.forEach(({ group }, router) => group.classList.toggle("chosen", shown.router === router));
}

/** The smallest size at which letters of the map have ten points of the screen. */
const LEAST_SCALE = 10 / 14;

/** Sizes the drawing: it fits its room, but never so small that letters cannot be read. */
function fitMap() {
  const room = part("map-scroll");
  const { clientWidth: width, clientHeight: height } = room;
  if (width === 0) return;
  const fit = Math.min(width / run.map.width, height / run.map.height, 1.9);
  shown.scale = shown.zoom || Math.max(fit, LEAST_SCALE);
  const drawing = part("drawing");
  drawing.style.width = run.map.width * shown.scale + "px";
  drawing.style.height = run.map.height * shown.scale + "px";
  drawing.classList.toggle("small", shown.scale < 0.98);
  shown.overflows = run.map.width * shown.scale > width + 1 || run.map.height * shown.scale > height + 1;
}

/** Brings the packets that a call is about into view, where the map is larger than its room. */
function followMap(events) {
  const packets = events.filter((event) => event.packet && event.what !== "moved").map((event) => event.packet);
  if (!shown.overflows || packets.length === 0) return;
  const room = part("map-scroll");
  const [x, y] = run.points[packets[0].place].map((value) => value * shown.scale);
  const [left, top] = [x - room.scrollLeft, y - room.scrollTop];
  if (left > 40 && top > 40 && left < room.clientWidth - 40 && top < room.clientHeight - 40) return;
  room.scrollTo(x - room.clientWidth / 2, y - room.clientHeight / 2);
}
