// The strip under the map: what declined set-ups still hold, sides with one free entry, what is under way.

/** Draws the strip of a state. */
function drawStrip() {
  if (shown.question) {
    part("strip").innerHTML = '<span class="note">The slot tables are hidden until you have answered.</span>';
    return;
  }
  part("strip").innerHTML = [leftSentence(), closedSentence(), keptSentence(), quietSentence()].join("");
  for (const item of part("strip").children) item.title = item.textContent;
}

/** The entries that are held in one of these ways, by connection. */
function entriesHeld(state, ways) {
  const held = new Map();
  state.holds.forEach((hold, entry) => {
    if (hold === "" || !ways.includes(hold)) return;
    const owner = ownerOf(state, entry);
    held.set(owner, [...(held.get(owner) ?? []), entry]);
  });
  return held;
}

/** What declined set-ups left behind. */
function leftSentence() {
  const left = entriesHeld(shown.state, "ldf");
  if (left.size === 0) return "";
  if (left.size === 1) return oneLeft(...left.entries().next().value);
  const total = [...left.values()].reduce((sum, entries) => sum + entries.length, 0);
  const routers = (entries) => entries.map((entry) => html.router(entryParts(entry).router));
  const items = [...left].map(([connection, entries]) => chip(connection) + " " + listed(routers(entries), 4, " "));
  return `<span class="left">⚠ ${left.size} declined set-ups still hold ${count(total, "entry", "entries")}: ` +
    `${items.join(" &nbsp; ")}</span>`;
}

/** What a single declined set-up left behind. */
function oneLeft(connection, entries) {
  const torn = entries.some((entry) => shown.state.holds[entry] === "d");
  const still = listed(entries.map(entryText), 4, "; ");
  return `<span class="left">⚠ ${chip(connection)} was declined, still booked: ${still}. ` +
    `${torn ? "The tear-down is on its way." : "No tear-down sent yet."}</span>`;
}

/** What closed connections still hold until their tear-downs have passed. */
function closedSentence() {
  const closed = [...entriesHeld(shown.state, "c")].map(([connection, entries]) =>
    `${chip(connection)} is closed, booked until its tear-down has passed: ${listed(entries.map(entryText), 4, "; ")}`);
  return closed.length === 0 ? "" : `<span>${listed(closed, 2, ". ")}</span>`;
}

/** Sides whose last free entry is kept. */
function keptSentence() {
  const kept = cells.free.filter((item) => item.free === 1)
    .map(({ row }) => `${html.router(Math.floor(row / 4))} side ${row % 4}`);
  return kept.length === 0 ? "" : `<span class="kept">◯ last free entry kept: ${listed(kept, 5)}</span>`;
}

/** What is under way, or that the network is empty. */
function quietSentence() {
  const packets = shown.state.packets.size;
  const accepted = shown.state.accepted.size;
  if (packets > 0) return `<span>${count(packets, "packet")} under way, ${accepted} accepted</span>`;
  const whose = count(accepted, "accepted connection");
  return `<span class="quiet">The network is empty: the table is exactly that of ${whose}.</span>`;
}
