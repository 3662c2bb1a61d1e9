// The slot tables: one block a router, one row a side, one cell a slot, with the owner of each booked entry.

/** What the tables keep of the elements they change. */
const cells = { byEntry: [], bySlot: [], free: [], fresh: [] };

/** What a side is joined to, by name. */
function jointName(router, side) {
  const [kind, number] = run.plan.joints[router][side];
  return ["nothing", nameOf.router, nameOf.active, nameOf.passive][kind](number);
}

/** The sides that a served walk leaves by. */
function usedSides() {
  const used = new Set();
  for (const walk of run.plan.walks.values()) for (const hop of walk) used.add(hop.router + "," + hop.side);
  return used;
}

/** Draws the empty tables and remembers their cells. */
function buildTables() {
  const used = usedSides();
  part("blocks").innerHTML = run.plan.joints.map((_, router) => blockHtml(router, used)).join("");
  part("blocks").className = sizeClass();
  part("blocks").style.setProperty("--names", nameWidth() + "px");
  part("blocks").style.setProperty("--slots", run.plan.slots);
  cells.bySlot = Array.from({ length: run.plan.slots }, () => []);
  const all = (selector) => [...part("blocks").querySelectorAll(selector)];
  for (const cell of all("td")) {
    cells.byEntry[Number(cell.dataset.entry)] = { cell, look: "" };
    cells.bySlot[Number(cell.dataset.entry) % run.plan.slots].push(cell);
  }
  for (const head of all("th[data-slot]")) cells.bySlot[Number(head.dataset.slot)].push(head);
  cells.free = all("th.free").map((head) => ({ head, row: Number(head.dataset.row), free: -1 }));
  part("legend").innerHTML = legendHtml();
}

/** The size of cells, by how many there are and by how long the letters of connections are. */
function sizeClass() {
  const { routers, slots } = run.plan;
  if (slots <= 4 && routers <= 4) return "large";
  if (slots <= 8 && routers <= 6) return "middle";
  return run.connections.some(({ letter }) => letter.length > 2) ? "small long" : "small";
}

/** The width of the names before the rows: the longest one, within limits. */
function nameWidth() {
  const rows = run.sides.map(({ router, side }) => `${side} → ${jointName(router, side)}`);
  const names = run.plan.joints.map((_, router) => nameOf.router(router));
  return Math.min(116, 16 + 7 * Math.max(...[...rows, ...names].map((name) => name.length)));
}

/** The block of a router. */
function blockHtml(router, used) {
  const { slots, joints } = run.plan;
  const heads = Array.from({ length: slots }, (_, slot) => `<th data-slot="${slot}">${slot}</th>`).join("");
  const rows = joints[router].map(([kind], side) => (kind === JOINT.nothing ? "" : rowHtml(router, side, used)));
  const shownRows = joints[router].filter((_, side) => used.has(router + "," + side)).length;
  const unused = shownRows > 0 ? "" : " unused";
  const name = html.router(router);
  const head = `<thead><tr><th class="name" title="${name}">${name}</th>${heads}<th></th></tr></thead>`;
  return `<div class="block${unused}" style="--rows:${shownRows}"><table>${head}<tbody>${rows.join("")}</tbody></table></div>`;
}

/** The row of a side. */
function rowHtml(router, side, used) {
  const to = escapeText(jointName(router, side));
  const cell = (_, slot) => `<td data-entry="${entryNumber(router, side, slot)}"></td>`;
  const entries = Array.from({ length: run.plan.slots }, cell).join("");
  const unused = used.has(router + "," + side) ? "" : ' class="unused"';
  return `<tr${unused}><th class="side-name" title="side ${side}, to ${to}">${side} → ${to}</th>` +
    `${entries}<th class="free" data-row="${router * 4 + side}"></th></tr>`;
}

/** The legend of the cells. */
function legendHtml() {
  const [colour, ink] = COLOURS[0];
  const look = `style="--c:${colour};--i:${ink}"`;
  const item = (hold) => `<span><i class="cell booked ${hold.style}" ${look}>${hold.sign}A</i>${hold.word}</span>`;
  const last = '<span><i class="cell last"></i>last free, kept</span>';
  return Object.values(HOLDS).filter((hold) => !hold.rare).map(item).join("") + last;
}

/** Draws the tables of a state. While the student is asked, every cell is hidden. */
function drawTables() {
  const { state } = shown;
  const hidden = Boolean(shown.question);
  const free = new Map();
  for (let entry = 0; entry < state.table.length; entry += 1) {
    if (!cells.byEntry[entry]) continue;
    drawCell(state, entry, hidden);
    const row = Math.floor(entry / run.plan.slots);
    if (!isBooked(state, entry)) free.set(row, (free.get(row) ?? 0) + 1);
  }
  for (const item of cells.free) drawFree(state, item, hidden ? -2 : free.get(item.row) ?? 0);
  drawCurrentSlot(state.slot);
  drawFresh(hidden ? [] : shown.events.filter((event) => event.what === "entry"));
}

/** Frames the entries that the last call booked or freed. */
function drawFresh(events) {
  for (const cell of cells.fresh) cell.classList.remove("fresh");
  cells.fresh = events.map(({ entry }) => cells.byEntry[entry]?.cell).filter(Boolean);
  for (const cell of cells.fresh) cell.classList.add("fresh");
}

/** One cell: sign and letter of its owner, pattern by how it is held. */
function drawCell(state, entry, hidden) {
  const item = cells.byEntry[entry];
  const booked = isBooked(state, entry) && !hidden;
  const owner = booked ? ownerOf(state, entry) : -1;
  const look = hidden ? "hidden" : booked ? `${owner}${state.holds[entry]}` : "";
  if (item.look === look) return;
  const hold = HOLDS[state.holds[entry]] ?? { sign: "?", style: "" };
  const current = item.cell.classList.contains("current") ? " current" : "";
  item.look = look;
  item.cell.className = (hidden ? "hidden" : booked ? "booked " + hold.style : "") + current;
  item.cell.textContent = booked ? hold.sign + (owner < 0 ? "" : letterOf(owner)) : "";
  item.cell.style.cssText = owner < 0 ? "" : `--c:${colourOf(owner)[0]};--i:${colourOf(owner)[1]}`;
  item.cell.title = booked && owner >= 0 ? cellTitle(state, entry, owner) : "";
}

/** A booked entry in words. */
function cellTitle(state, entry, owner) {
  const { active, passive, slot } = run.connections[owner];
  return `${letterOf(owner)}: ${nameOf.active(active)} → ${nameOf.passive(passive)} from slot ${slot}, ` +
    `${HOLDS[state.holds[entry]].word}; came in by side ${state.table[entry]}`;
}

/** How many entries of a side are free; a single one is kept and has a ring. */
function drawFree(state, item, free) {
  if (item.free !== free) {
    item.head.textContent = free < 0 || free === run.plan.slots ? "" : free === 1 ? "1 kept" : `${free} free`;
    item.head.classList.toggle("kept", free === 1);
  }
  if (free === 1 || item.free === 1) {
    for (let slot = 0; slot < run.plan.slots; slot += 1) {
      const entry = item.row * run.plan.slots + slot;
      cells.byEntry[entry].cell.classList.toggle("last", free === 1 && !isBooked(state, entry));
    }
  }
  item.free = free;
}

/** The current slot is framed in every row. */
function drawCurrentSlot(slot) {
  if (cells.current === slot) return;
  for (const cell of cells.bySlot[cells.current] ?? []) cell.classList.remove("current");
  for (const cell of cells.bySlot[slot]) cell.classList.add("current");
  cells.current = slot;
}
