// From cells to points of the drawing: boxes of routers and interfaces, places of packets, wires.

/** Sizes of the drawing. A side's frame has x outwards from the box's middle and y along the edge. */
const SIZE = {
  box: 72, // half a router's box
  lane: 20, // in- and out-lane, off the middle of a side
  number: 4, // the number of a side, off the edge
  tray: [30, 18],
  unit: [72, 92],
  unitTray: [17.5, 11.5], // the trays of a unit, off its middle
  unitWire: 35, // the wires to and from a unit, above and below its trays
  gap: 20, // the wires between a box and an interface
  upright: [76, 22], // an interface above or below a router
  lying: [44, 66], // an interface beside a router
  name: 16, // room for an interface's name
  beside: 30, // room for what a name is wider than an interface beside a router
  between: [42, 38], // between two boxes beside and above one another
  margin: 8, // around the drawing
};

/** The trays at a side in its frame: at the right or left edge of a box below one another, at the upper or lower
    edge beside one another, where the last has room only further in. */
const TRAYS = {
  in: { beside: [54, -20], above: [61, -20] },
  out: { beside: [54, 20], above: [61, 20] },
  "out-back": { beside: [54, 40.5], above: [61, 54] },
  cross: { beside: [54, 61], above: [40.5, 54] },
};

/** A point of a side's frame, turned to an edge. */
function turned(edge, x, y) {
  return [[x, y], [-y, x], [-x, -y], [y, -x]][edge];
}

/** A point of a side's frame in the drawing. */
function pointAt(router, edge, x, y) {
  const [dx, dy] = turned(edge, x, y);
  const [cx, cy] = run.map.centres[router];
  return [cx + dx, cy + dy];
}

/** Whether a router has an interface on that edge. */
function interfaceOn(layout, router, edge) {
  return run.plan.joints[router][layout.edges[router].indexOf(edge)][0] >= JOINT.active;
}

/** The room before each row or column, and after the last: what stands between the boxes. */
function gaps(layout, axis, size, least) {
  const at = layout.cells.map((cell) => cell[axis]);
  const lines = Math.max(...at) + 1;
  const [after, before] = axis === 0 ? [0, 2] : [1, 3];
  return Array.from({ length: lines + 1 }, (_, line) => {
    const upper = at.some((cell, router) => cell === line - 1 && interfaceOn(layout, router, after));
    const lower = at.some((cell, router) => cell === line && interfaceOn(layout, router, before));
    const outer = line === 0 || line === lines;
    const inner = (upper + lower) * size + (upper && lower ? SIZE.margin : 0) + crowding(layout, axis, line);
    return outer ? Math.max(inner, axis === 0 ? SIZE.beside : SIZE.name) + SIZE.margin : Math.max(inner, least);
  });
}

/** More room where a wire to another router leaves towards an interface of the next router. */
function crowding(layout, axis, line) {
  const [after, before] = axis === 0 ? [0, 2] : [1, 3];
  const kind = (router, edge) => run.plan.joints[router][layout.edges[router].indexOf(edge)][0];
  const faces = layout.cells.some((cell, one) => layout.cells.some((next, other) => {
    const meet = cell[axis] === line - 1 && next[axis] === line && cell[1 - axis] === next[1 - axis];
    const kinds = meet ? [kind(one, after), kind(other, before)] : [];
    return kinds.includes(JOINT.router) && kinds.some((found) => found >= JOINT.active);
  }));
  return faces ? SIZE.lane + SIZE.margin : 0;
}

/** The middles of the boxes along one axis, and the length of the drawing. */
function spread(room) {
  const middles = [];
  let at = room[0];
  for (const next of room.slice(1)) {
    middles.push(at + SIZE.box);
    at += 2 * SIZE.box + next;
  }
  return { middles, length: at };
}

/** Works out the map: middles of the boxes, where interfaces are joined, width and height. */
function workOutMap() {
  const layout = layOut();
  const columns = spread(gaps(layout, 0, SIZE.gap + SIZE.lying[0] + SIZE.beside, SIZE.between[0]));
  const rows = spread(gaps(layout, 1, SIZE.gap + SIZE.upright[1] + SIZE.name, SIZE.between[1]));
  run.map = {
    edges: layout.edges,
    centres: layout.cells.map(([column, row]) => [columns.middles[column], rows.middles[row]]),
    width: columns.length,
    height: rows.length,
    actives: joinedTo(JOINT.active),
    passives: joinedTo(JOINT.passive),
  };
}

/** Router and side of each interface of a kind. */
function joinedTo(kind) {
  const joined = [];
  run.plan.joints.forEach((joints, router) => joints.forEach(([found, number], side) => {
    if (found === kind) joined[number] = { router, side };
  }));
  return joined;
}

/** An interface's box: middle, width, height, and the edge of its router. */
function interfaceBox({ router, side }) {
  const edge = run.map.edges[router][side];
  const [width, height] = edge % 2 ? SIZE.upright : SIZE.lying;
  const depth = edge % 2 ? height : width;
  return { middle: pointAt(router, edge, SIZE.box + SIZE.gap + depth / 2, 0), width, height, edge, depth };
}

/** A point beside an interface's middle, on its in- or out-lane. */
function interfacePoint(joined, lane) {
  const { edge, depth } = interfaceBox(joined);
  return pointAt(joined.router, edge, SIZE.box + SIZE.gap + depth / 2, lane);
}

/** The queues of a unit stand in the middle, sides 0 and 1 above sides 2 and 3. */
function unitPoint({ router, side }) {
  const [x, y] = SIZE.unitTray;
  return pointAt(router, 0, side % 2 ? x : -x, side < 2 ? -y : y);
}

/** Every spot that the data can give a place: the numbers that go with it, and the point where its packets
    are drawn. A spot more is one entry. */
const SPOTS = {
  in: { numbers: ["router", "side"], point: trayPoint },
  out: { numbers: ["router", "side"], point: trayPoint },
  "out-back": { numbers: ["router", "side"], point: trayPoint },
  cross: { numbers: ["router", "side"], point: trayPoint },
  unit: { numbers: ["router", "side"], point: unitPoint },
  "to-unit": { numbers: ["router"], point: ({ router }) => pointAt(router, 0, 0, -SIZE.unitWire) },
  "from-unit": { numbers: ["router"], point: ({ router }) => pointAt(router, 0, 0, SIZE.unitWire) },
  "active-out": { numbers: ["active"], point: (place) => interfacePoint(homeOf(place), -SIZE.lane) },
  "active-in": { numbers: ["active"], point: (place) => interfacePoint(homeOf(place), SIZE.lane) },
  "passive-out": { numbers: ["passive"], point: (place) => interfacePoint(homeOf(place), -SIZE.lane) },
  "passive-in": { numbers: ["passive"], point: (place) => interfacePoint(homeOf(place), SIZE.lane) },
  "to-side": { numbers: ["router", "side"], point: (place) => middleOf(wireCurve(place)) },
  "to-active": { numbers: ["active"], point: (place) => middleOf(wireCurve(place)) },
  "to-passive": { numbers: ["passive"], point: (place) => middleOf(wireCurve(place)) },
};

/** Router and side of the interface that a place is at. */
function homeOf({ active, passive }) {
  return active === undefined ? run.map.passives[passive] : run.map.actives[active];
}

/** A tray at a router's side. */
function trayPoint({ spot, router, side }) {
  const edge = run.map.edges[router][side];
  const [x, y] = TRAYS[spot][edge % 2 ? "above" : "beside"];
  return pointAt(router, edge, x, y);
}

/** A wire as a curve of four points, from its sender to where it leads; none for the wires of a unit. */
function wireCurve(place) {
  if (place.spot === "to-active" || place.spot === "to-passive") return interfaceWire(homeOf(place), true);
  if (place.spot !== "to-side") return null;
  const { router, side } = place;
  const [kind, partner, back] = run.plan.joints[router][side];
  if (kind !== JOINT.router) return interfaceWire({ router, side }, false);
  const [from, to] = [run.map.edges[partner][back], run.map.edges[router][side]];
  const [start, end] = [pointAt(partner, from, SIZE.box, SIZE.lane), pointAt(router, to, SIZE.box, -SIZE.lane)];
  const bend = Math.hypot(start[0] - end[0], start[1] - end[1]) * 0.42;
  return [start, shifted(start, from, bend), shifted(end, to, bend), end];
}

/** The straight wire between a router's side and an interface. */
function interfaceWire({ router, side }, outwards) {
  const edge = run.map.edges[router][side];
  const lane = outwards ? SIZE.lane : -SIZE.lane;
  const [near, far] = [pointAt(router, edge, SIZE.box, lane), pointAt(router, edge, SIZE.box + SIZE.gap, lane)];
  return outwards ? [near, near, far, far] : [far, far, near, near];
}

/** A point moved outwards from an edge. */
function shifted([x, y], edge, by) {
  return [x + EDGES[edge][0] * by, y + EDGES[edge][1] * by];
}

/** The middle of a curve. */
function middleOf(curve) {
  const weights = [0.125, 0.375, 0.375, 0.125];
  return [0, 1].map((axis) => curve.reduce((sum, point, at) => sum + weights[at] * point[axis], 0));
}
