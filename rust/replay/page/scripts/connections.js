// The list of connections that were launched so far: those in trouble first.

/** What can be said of a connection now, in the order of the list. */
const STANDINGS = [
  { id: "torn", text: "being torn down", style: "bad" },
  { id: "left", text: "declined, left behind", style: "bad" },
  { id: "closing", text: "closed, being torn down", style: "" },
  { id: "underway", text: "set-up under way", style: "" },
  { id: "answered", text: "ACK under way", style: "" },
  { id: "nack", text: "declined, nothing booked", style: "" },
  { id: "accepted", text: "accepted", style: "good" },
  { id: "gone", text: "declined, all free", style: "dim" },
  { id: "closed", text: "closed, all free", style: "dim" },
];

/** How each launched connection stands, from its turns, from its packets and from what the state keeps. */
function standings(state) {
  const standing = new Map();
  const closers = new Set();
  for (const { number, what, packet } of run.turns) {
    if (number >= shown.position) break;
    if (what === "closed") closers.add(packet.id);
    standing.set(packet.connection, what === "closed" ? "closed" : "gone");
  }
  for (const connection of state.accepted) standing.set(connection, "accepted");
  for (const packet of state.packets.values()) {
    const torn = closers.has(packet.id) ? "closing" : "torn";
    const ids = { T: torn, N: packet.hub > 0 ? "left" : "nack", S: "underway", A: "answered" };
    if (packet.kind === "N" && standing.get(packet.connection) === "torn") continue;
    standing.set(packet.connection, ids[packet.kind]);
  }
  return standing;
}

/** Draws the list. */
function drawConnections() {
  const rank = new Map(STANDINGS.map((standing, at) => [standing.id, at]));
  const byRank = (one, other) => rank.get(one[1]) - rank.get(other[1]) || one[0] - other[0];
  const rows = [...standings(shown.state)].sort(byRank);
  const body = rows.map(([connection, id]) => connectionRow(connection, STANDINGS[rank.get(id)])).join("");
  part("connections").innerHTML = rows.length === 0 ? "<p>No set-up was launched yet.</p>" :
    `<table>${tableHead("", "from → to", "start", "now")}<tbody>${body}</tbody></table>`;
}

/** The row of a connection. */
function connectionRow(connection, standing) {
  const told = run.connections[connection];
  return `<tr class="go" data-connection="${connection}"><td>${chip(connection)}</td><td>${html.pair(told)}</td>` +
    `<td>${told.slot}</td><td class="${standing.style}">${standing.text}</td></tr>`;
}

/** The last packet of a connection that was made before the current position. */
function lastPacketOf(connection) {
  let last = null;
  for (const [id, journey] of run.journeys) {
    if (journey.connection === connection && journey.steps[0].call < shown.position) last = id;
  }
  return last;
}
