// Words, signs and colours: what the page calls things. Terms are document 01's.

/** The kinds of packets: term, word, sign, and whether it goes to the passive. */
const KINDS = {
  S: { term: "SETUP", word: "set-up", sign: "+", onward: true, full: true },
  T: { term: "TDOWN", word: "tear-down", sign: "−", onward: true, full: false },
  A: { term: "ACK", word: "ACK", sign: "✓", onward: false, full: true },
  N: { term: "NACK", word: "NACK", sign: "✕", onward: false, full: false },
};

/** How a connection can hold an entry: sign and class of its cell, words of the legend and of a sentence. */
const HOLDS = {
  a: { name: "accepted", sign: "", style: "accepted", word: "accepted" },
  c: { name: "closed", sign: "−", style: "closing", word: "closed" },
  w: { name: "under way", sign: "+", style: "underway", word: "under way" },
  l: { name: "left behind", sign: "✕", style: "leftover", word: "declined, left behind" },
  d: { name: "being torn down", sign: "−", style: "teardown", word: "being torn down" },
  f: { name: "left for good", sign: "!", style: "forgotten", word: "left for good", rare: true },
};

/** The three phases, in turn. */
const PHASES = ["READ", "EXECUTE", "WRITE"];

/** What a free entry holds in the table. */
const FREE = 4;

/** Colours that stay apart for colour-blind eyes (Okabe and Ito), each with the ink that is readable on it. */
const COLOURS = [
  ["#0072B2", "#fff"], ["#E69F00", "#111"], ["#007A5A", "#fff"], ["#CC79A7", "#111"],
  ["#56B4E9", "#111"], ["#C24E00", "#fff"], ["#D6C21F", "#111"], ["#7A57A5", "#fff"],
];

/** The colour and the ink of a connection. */
function colourOf(connection) {
  return COLOURS[connection % COLOURS.length];
}

/** Names as the plan's text gives them, else by number. */
const nameOf = {
  router: (number) => run.names.r[number] ?? "r" + number,
  active: (number) => run.names.a[number] ?? "a" + number,
  passive: (number) => run.names.p[number] ?? "p" + number,
};

/** The letter of a connection. */
function letterOf(connection) {
  return run.connections[connection].letter;
}

/** Text that may stand in HTML. */
function escapeText(text) {
  const signs = { "&": "&amp;", "<": "&lt;", ">": "&gt;", '"': "&quot;" };
  return String(text).replace(/[&<>"]/g, (sign) => signs[sign]);
}

/** The same names as HTML, and the two ends of a connection or a packet. */
const html = {
  router: (number) => escapeText(nameOf.router(number)),
  active: (number) => escapeText(nameOf.active(number)),
  passive: (number) => escapeText(nameOf.passive(number)),
  place: (number) => escapeText(placeOf(number).name),
  pair: ({ active, passive }) => `${html.active(active)} → ${html.passive(passive)}`,
};

/** The head of a table, as HTML. */
function tableHead(...titles) {
  return `<thead><tr>${titles.map((title) => `<th>${title}</th>`).join("")}</tr></thead>`;
}

/** The letter of a connection on its colour, as HTML. */
function chip(connection) {
  const [colour, ink] = colourOf(connection);
  return `<span class="chip" style="--c:${colour};--i:${ink}">${letterOf(connection)}</span>`;
}

/** A packet's sign with its connection's letter, as HTML. */
function packetChip(packet) {
  return KINDS[packet.kind].sign + chip(packet.connection);
}

/** A count with its noun. */
function count(number, noun, nouns = noun + "s") {
  return `${number} ${number === 1 ? noun : nouns}`;
}

/** A list of at most `most` items in words. */
function listed(items, most, separator = ", ") {
  const shown = items.slice(0, most).join(separator);
  return items.length > most ? `${shown} and ${items.length - most} more` : shown;
}

/** The element with that id. */
function part(id) {
  return document.getElementById(id);
}
