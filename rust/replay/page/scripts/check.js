// The check sum of a state: CRC-32 of a text that tells the whole state, credits and owners included.

/** The table of CRC-32. */
const CRC_TABLE = new Uint32Array(256).map((_, number) => {
  let value = number;
  for (let bit = 0; bit < 8; bit += 1) value = value & 1 ? 0xedb88320 ^ (value >>> 1) : value >>> 1;
  return value;
});

/** CRC-32 of a text of plain signs, in base sixteen. */
function checkSum(text) {
  let crc = -1;
  for (let at = 0; at < text.length; at += 1) crc = CRC_TABLE[(crc ^ text.charCodeAt(at)) & 255] ^ (crc >>> 8);
  return ((crc ^ -1) >>> 0).toString(16);
}

/** A packet in the text of a state. */
function packetText(packet) {
  return `${packet.kind}${packet.active}.${packet.passive}.${packet.slot}.${packet.hub}`;
}

/** The numbers for which a test holds, as texts. */
function numbersWhere(length, holds, text) {
  const found = [];
  for (let number = 0; number < length; number += 1) if (holds(number)) found.push(text(number));
  return found;
}

/** The whole state as a text, only what is not at rest; equal states have equal texts. */
function stateText(state) {
  const { places } = run;
  const credits = creditsOf(state);
  const packets = (number) => state.held[number].map((id) => packetText(state.packets.get(id))).join();
  const ascending = (one, other) => one - other;
  const picked = [...state.picked].map((id) => state.packets.get(id).place).sort(ascending);
  const owner = (entry) => `${entry}:${state.owners[entry]}${state.holds[entry]}`;
  const turned = (output) => `${output}:${state.last[output]}`;
  const used = (at) => places[at].credit && credits[at] !== places[at].capacity;
  return [
    `${state.phase},${state.slot}`,
    numbersWhere(places.length, (at) => state.held[at].length > 0, (at) => `${at}:${packets(at)}`).join(";"),
    numbersWhere(places.length, (at) => state.flags[at], String),
    numbersWhere(places.length, used, (at) => `${at}:${credits[at]}`),
    numbersWhere(places.length, (at) => state.handled[at], String),
    numbersWhere(state.table.length, (at) => isBooked(state, at), (at) => `${at}:${state.table[at]}`),
    numbersWhere(state.table.length, (at) => state.owners[at] >= 0, owner),
    picked,
    state.allowances,
    [...state.accepted].sort(ascending),
    numbersWhere(state.last.length, (at) => state.last[at] + 1 !== run.outputs[at].senders.length, turned),
  ].join("|");
}

/** The check sum that the program recorded for the state after `position` calls. */
function recordedSum(position) {
  return position === 0 ? run.start : run.calls[position - 1].check;
}

/** Whether a state is the one that the program recorded. */
function isRecorded(state, position) {
  return checkSum(stateText(state)) === recordedSum(position);
}
