// The tokens of a line: what a call changed. One entry of TOKENS for each token of the format.

/** Reads a number written in a base; anything else stops the page. */
function readDigits(text, base) {
  const number = parseInt(text, base);
  if (!(number >= 0) || number.toString(base) !== text) stop(`'${text}' is not a number`);
  return number;
}

/** Reads one of some letters. */
function readLetter(text, letters) {
  if (!(text in letters)) stop(`'${text}' is not one of ${Object.keys(letters).join(" ")}`);
  return text;
}

/** The forms of fields: numbers in base ten, codes in base 36, letters of kinds and holds. */
const FIELDS = {
  number: (text) => readDigits(text, 10),
  code: (text) => readDigits(text, 36),
  kind: (text) => readLetter(text, KINDS),
  hold: (text) => readLetter(text, HOLDS),
};

/** Every token: its fields (a `?` after a field that may be missing) and what it does to a state.
    Tokens that tell a story append an event to `events` where a list is given. */
const TOKENS = {
  p: { fields: ["number"], apply: (state, [phase]) => { state.phase = phase; } },
  s: { fields: ["number"], apply: (state, [slot]) => { state.slot = slot; } },
  "+": { fields: ["code", "kind", "number", "number", "number", "number", "code", "code", "code?"], apply: makePacket },
  ">": { fields: ["code", "code", "code?"], apply: movePacket },
  "=": { fields: ["code", "kind", "number", "number"], apply: changePacket },
  "-": { fields: ["code"], apply: endPacket },
  "*": { fields: ["code?"], apply: pickPacket },
  "^": { fields: ["code"], apply: (state, [queue]) => { state.flags[placeOf(queue).number] = 1; } },
  _: { fields: [], apply: (state) => { state.flags.fill(0); } },
  h: { fields: ["code", "number"], apply: (state, [queue, mark]) => { state.handled[placeOf(queue).number] = mark; } },
  t: { fields: ["code", "number"], apply: setEntry },
  o: { fields: ["code", "code?", "hold?"], apply: setOwner },
  a: { fields: ["number", "number"], apply: (state, [active, allowance]) => { state.allowances[active] = allowance; } },
  c: { fields: ["code", "number"], apply: setAccepted },
  l: { fields: ["code", "number"], apply: setLast },
};

/** The fields of a token as values. */
function readFields(token, text) {
  const written = text === "" ? [] : text.split(",");
  const needed = token.fields.filter((field) => !field.endsWith("?")).length;
  if (written.length < needed || written.length > token.fields.length) stop("a token has another number of fields");
  return written.map((field, at) => FIELDS[token.fields[at].replace("?", "")](field));
}

/** Applies every token of a call's line to a state; a damaged line stops the page and is named. */
function applyCall(state, number, events) {
  const line = run.lines[number];
  try {
    const tokens = line.split(" ");
    for (let at = 2; at < tokens.length; at += 1) {
      const token = TOKENS[tokens[at][0]];
      if (!token) stop(`this page knows no token '${tokens[at]}'`);
      token.apply(state, readFields(token, tokens[at].slice(1)), events);
    }
  } catch (error) {
    damagedLine(number, line, error.message);
  }
}

/** `+`: a packet is made in a place; a tear-down names the NACK it answers, or the ACK whose connection it closes. */
function makePacket(state, [id, kind, active, passive, slot, hub, place, connection, parent], events) {
  if (state.packets.has(id)) stop(`packet ${id} is there already`);
  const told = run.connections[connection] ?? stop(`there is no connection ${connection}`);
  if (told.active !== active || told.passive !== passive) stop(`packet ${id} is not of connection ${told.letter}`);
  const packet = { id, kind, active, passive, slot, hub, place: placeOf(place).number, bound: -1, connection };
  state.packets.set(id, packet);
  enter(state, packet.place, id);
  if (events) events.push({ what: "made", packet: { ...packet }, parent });
}

/** `>`: a packet goes from the head of its place to the end of another one. On a wire the queue it
    is bound for is told too. */
function movePacket(state, [id, place, bound], events) {
  const packet = packetOf(state, id);
  const from = packet.place;
  leave(state, packet);
  packet.place = placeOf(place).number;
  packet.bound = bound === undefined ? -1 : placeOf(bound).number;
  enter(state, packet.place, id);
  if (events) events.push({ what: "moved", packet: { ...packet }, from });
}

/** `=`: kind, slot and hub of a packet change where it is. */
function changePacket(state, [id, kind, slot, hub], events) {
  const packet = packetOf(state, id);
  const before = { ...packet };
  Object.assign(packet, { kind, slot, hub });
  if (events) events.push({ what: "changed", packet: { ...packet }, before });
}

/** `-`: a packet ends at the head of its place. */
function endPacket(state, [id], events) {
  const packet = packetOf(state, id);
  leave(state, packet);
  state.packets.delete(id);
  if (events) events.push({ what: "ended", packet: { ...packet } });
}

/** `*` with a packet: it is picked. `*` alone: the choices are cleared. */
function pickPacket(state, [id]) {
  if (id === undefined) state.picked.clear();
  else state.picked.add(packetOf(state, id).id);
}

/** `t`: an entry of the slot table. */
function setEntry(state, [entry, side], events) {
  if (entry >= state.table.length) stop(`there is no entry ${entry}`);
  state.table[entry] = side;
  if (events) events.push({ what: "entry", entry, side });
}

/** `o`: whose an entry is, by the number of its set-up, and how it is held; alone: nobody's. */
function setOwner(state, [entry, setUp, hold]) {
  if (entry >= state.table.length) stop(`there is no entry ${entry}`);
  if (setUp !== undefined && (!run.journeys.has(setUp) || !hold)) stop(`entry ${entry} has no readable owner`);
  state.owners[entry] = setUp === undefined ? -1 : setUp;
  state.holds[entry] = setUp === undefined ? "" : hold;
}

/** `c`: a connection is accepted, or no longer is. */
function setAccepted(state, [connection, accepted]) {
  if (!run.connections[connection]) stop(`there is no connection ${connection}`);
  if (accepted === 1) state.accepted.add(connection);
  else state.accepted.delete(connection);
}

/** `l`: the sender that an output served last, by its rank. */
function setLast(state, [output, rank]) {
  const { senders } = run.outputs[output] ?? stop(`there is no output ${output}`);
  if (rank >= senders.length) stop(`output ${output} has no sender ${rank}`);
  state.last[output] = rank;
}
