// Where the routers stand on the map: a cell of a grid for each, and the edge of the box for each of its
// sides. The same plan always gives the same map.

/** The four edges of a router's box: right, below, left, above. */
const EDGES = [[1, 0], [0, 1], [-1, 0], [0, -1]];

/** What a joint leads to, by its kind in the plan bytes. */
const JOINT = { nothing: 0, router: 1, active: 2, passive: 3 };

/** The neighbours of each router, each once. */
function neighbours() {
  const routers = (joints) => joints.filter(([kind]) => kind === JOINT.router).map(([, number]) => number);
  return run.plan.joints.map((joints) => [...new Set(routers(joints))]);
}

/** All routers, neighbours behind one another, from routers with few neighbours on. */
function walkingOrder(near) {
  const order = [];
  const byNeighbours = (one, other) => near[one].length - near[other].length || one - other;
  const starts = near.map((_, router) => router).sort(byNeighbours);
  for (const start of starts) {
    if (order.includes(start)) continue;
    order.push(start);
    for (let at = order.length - 1; at < order.length; at += 1) {
      for (const next of near[order[at]].slice().sort((one, other) => one - other)) {
        if (!order.includes(next)) order.push(next);
      }
    }
  }
  return order;
}

/** Whether the routers form a single line. */
function isLine(near) {
  const ends = near.reduce((sum, list) => sum + list.length, 0);
  return ends === 2 * (near.length - 1) && near.every((list) => list.length <= 2);
}

/** A line, folded into rows that run to and fro. */
function foldedLine(order) {
  const rows = order.length <= 5 ? 1 : order.length <= 10 ? 2 : 3;
  const columns = Math.ceil(order.length / rows);
  const cells = [];
  order.forEach((router, at) => {
    const row = Math.floor(at / columns);
    cells[router] = [row % 2 ? columns - 1 - (at % columns) : at % columns, row];
  });
  return cells;
}

/** Numbers that look random and are the same each time. */
function fixedRandom() {
  let seed = 1;
  return (bound) => {
    seed = (Math.imul(seed, 1664525) + 1013904223) >>> 0;
    return Math.floor((seed / 4294967296) * bound);
  };
}

/** How bad a grid is: long and slanted joints, and joints that cross a router. */
function gridCost(joints, cells, filled) {
  let cost = 0;
  for (const [one, other] of joints) {
    const [dx, dy] = [cells[other][0] - cells[one][0], cells[other][1] - cells[one][1]];
    cost += dx * dx + dy * dy - 1 + (dx && dy ? 1.5 : 0);
    const steps = Math.abs(dx + dy);
    for (let step = 1; (dx === 0) !== (dy === 0) && step < steps; step += 1) {
      if (filled.has([cells[one][0] + (dx / steps) * step, cells[one][1] + (dy / steps) * step].join())) cost += 5;
    }
  }
  return cost;
}

/** Cells for any other graph: routers change cells while that makes the grid better, and at first also
    when it makes it a little worse. */
function annealedGrid(near, order) {
  const columns = Math.max(2, Math.ceil(Math.sqrt(order.length * 1.7)));
  const rows = Math.ceil(order.length / columns) + (order.length > 3 ? 1 : 0);
  const cellOf = (at) => [at % columns, Math.floor(at / columns)];
  const inCell = new Array(columns * rows).fill(-1);
  const cells = [];
  order.forEach((router, at) => { inCell[at] = router; cells[router] = cellOf(at); });
  const joints = near.flatMap((list, one) => list.filter((other) => one < other).map((other) => [one, other]));
  const cost = () => gridCost(joints, cells, new Set(cells.map((cell) => cell.join())));
  const exchange = (one, other) => {
    [inCell[one], inCell[other]] = [inCell[other], inCell[one]];
    for (const at of [one, other]) if (inCell[at] >= 0) cells[inCell[at]] = cellOf(at);
  };
  improve(inCell, cost, exchange);
  return closeUp(cells);
}

/** The exchanges of `annealedGrid`. */
function improve(inCell, cost, exchange) {
  const random = fixedRandom();
  const tries = inCell.length > 12 ? 9000 : 4000;
  let now = cost();
  for (let at = 0; at < tries && now > 0; at += 1) {
    const [one, other] = [random(inCell.length), random(inCell.length)];
    if (one === other || (inCell[one] < 0 && inCell[other] < 0)) continue;
    exchange(one, other);
    const then = cost();
    const heat = 4 * (1 - at / tries) ** 2 + 0.01;
    if (then <= now || random(1e6) / 1e6 < Math.exp((now - then) / heat)) now = then;
    else exchange(one, other);
  }
}

/** Takes out columns and rows without a router, and has the first router left and above. */
function closeUp(cells) {
  const used = (axis) => [...new Set(cells.map((cell) => cell[axis]))].sort((one, other) => one - other);
  const lines = [used(0), used(1)];
  const turn = lines.map((line, axis) => 2 * line.indexOf(cells[0][axis]) > line.length - 1);
  return cells.map((cell) => cell.map((value, axis) => {
    const at = lines[axis].indexOf(value);
    return turn[axis] ? lines[axis].length - 1 - at : at;
  }));
}

/** All orders of the four edges. */
function edgeOrders(taken = []) {
  if (taken.length === 4) return [taken];
  return [0, 1, 2, 3].filter((edge) => !taken.includes(edge)).flatMap((edge) => edgeOrders([...taken, edge]));
}

/** How bad it is to have a side with this joint on this edge. */
function edgeCost(cells, router, [kind, number], edge) {
  const [x, y] = cells[router];
  if (kind === JOINT.nothing) return 0;
  if (kind === JOINT.router) {
    const [dx, dy] = [cells[number][0] - x, cells[number][1] - y];
    return 3 * (1 - (EDGES[edge][0] * dx + EDGES[edge][1] * dy) / (Math.hypot(dx, dy) || 1));
  }
  const taken = cells.some(([column, row]) => column === x + EDGES[edge][0] && row === y + EDGES[edge][1]);
  const upright = edge % 2 === 1;
  const turned = (kind === JOINT.active && edge === 1) || (kind === JOINT.passive && edge === 3);
  return (upright ? 0 : 0.3) + (taken ? (upright ? 0.1 : 0.4) : 0) + (turned ? 0.05 : 0);
}

/** The best of the 24 ways to put a router's sides on its edges. */
function bestEdges(cells, router) {
  const joints = run.plan.joints[router];
  const cost = (edges) => edges.reduce((sum, edge, side) => sum + edgeCost(cells, router, joints[side], edge), 0);
  return edgeOrders().reduce((best, edges) => (cost(edges) < cost(best) - 1e-9 ? edges : best));
}

/** The cell of every router and the edge of each of its sides. */
function layOut() {
  const near = neighbours();
  const order = walkingOrder(near);
  const cells = isLine(near) ? foldedLine(order) : annealedGrid(near, order);
  return { cells, edges: cells.map((_, router) => bestEdges(cells, router)) };
}
