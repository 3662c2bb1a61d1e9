// One pass over the run: rounds, journeys of packets, and the moments that stand on the timeline.

/** The lanes of the timeline: key, sign, name, colour, and which calls stand on it. A lane more is one
    entry; its button, its key and its row of the timeline follow. */
const LANES = [
  { id: "launch", key: "l", sign: "+", name: "launch", colour: "#0072B2",
    when: (call, events) => events.some(isLaunch) },
  { id: "accepted", key: "a", sign: "✓", name: "accepted", colour: "#007A5A", button: true,
    when: (call, events) => events.some(isAccepted) },
  { id: "close", key: "c", sign: "◇", name: "close", colour: "#5C6670",
    when: (call) => isClose(call) },
  { id: "decline", key: "d", sign: "✕", name: "decline", colour: "#C24E00", button: true,
    when: (call, events) => events.some(isDecline) },
  { id: "tear-down", key: "t", sign: "−", name: "tear-down", colour: "#7A57A5", button: true,
    when: (call, events) => events.some(isTearDown) },
  { id: "refusal", key: "r", sign: "!", name: "refusal", colour: "#B3261E", button: true,
    when: (call) => call.refusal > 0 },
];

/** A set-up joins its active's out-queue. */
function isLaunch(event) {
  return event.what === "made" && event.packet.kind === "S";
}

/** A connection comes to be accepted: its ACK is dropped. */
function isAccepted(event) {
  return event.what === "ended" && event.packet.kind === "A";
}

/** A connection is closed. */
function isClose(call) {
  return call.letter === "K" && !call.refusal;
}

/** A set-up becomes a NACK, at a unit or at its passive. */
function isDecline(event) {
  return event.what === "changed" && event.before.kind === "S" && event.packet.kind === "N";
}

/** A tear-down is made or ends. */
function isTearDown(event) {
  return (event.what === "made" || event.what === "ended") && event.packet.kind === "T";
}

/** Reads every call once and fills the run's calls, rounds, lanes, journeys and snapshots. */
function tellStory() {
  Object.assign(run, { calls: [], roundStarts: [0], snapshots: [] });
  Object.assign(run, { journeys: new Map(), declines: new Map(), turns: [] });
  run.lanes = Object.fromEntries(LANES.map((lane) => [lane.id, []]));
  const state = startState();
  for (let number = 0; number < run.lines.length; number += 1) {
    if (number % SNAPSHOT_EVERY === 0) run.snapshots.push(copyState(state));
    tellCall(state, number);
  }
  if (run.snapshots.length === 0) run.snapshots.push(state);
}

/** One call of the story. */
function tellCall(state, number) {
  const call = readCall(run.lines[number], number);
  Object.assign(call, { round: run.roundStarts.length - 1, phase: state.phase, slot: state.slot });
  run.calls.push(call);
  const events = [];
  applyCall(state, number, events);
  for (const event of events) tellEvent(event, number);
  call.did = events.map(shortSentence).filter(Boolean);
  for (const lane of LANES) if (lane.when(call, events)) run.lanes[lane.id].push(number);
  const declined = events.filter(isDecline).map((event) => event.packet);
  if (declined.length > 0) run.declines.set(number, declined);
  for (const event of events) {
    const what = turnOf(call, event);
    if (what) run.turns.push({ number, what, packet: event.packet });
  }
  if (call.letter === "W" && !call.refusal) run.roundStarts.push(number + 1);
}

/** What a call made of a connection: launched, accepted or closed. The packet is its set-up, its ACK, its tear-down. */
function turnOf(call, event) {
  if (isLaunch(event)) return "launched";
  if (isAccepted(event)) return "accepted";
  return isClose(call) && event.what === "made" ? "closed" : "";
}

/** An event goes into the journey of its packet. */
function tellEvent(event, number) {
  if (!event.packet) return;
  if (event.what === "made") startJourney(event);
  const { id, place, kind, slot, hub } = event.packet;
  run.journeys.get(id).steps.push({ call: number, place, kind, slot, hub, word: stepWord(event) });
}

/** What an event did to the slot table or for it, in a few words for the list of calls. */
function shortSentence({ what, packet, before }) {
  if (!packet || what === "moved") return "";
  const letter = letterOf(packet.connection);
  if (what === "made") return packet.kind === "T" ? `tear-down ${letter} is made` : "";
  const was = before ?? packet;
  const hop = hopAt(was);
  const entry = hop ? `${nameOf.router(hop.router)}.${hop.side} slot ${was.slot}` : "";
  if (what === "ended" && packet.kind !== "T") return packet.kind === "A" ? `${letter} is accepted` : `NACK of ${letter}`;
  if (what === "ended") return `${letter} frees ${entry} and ends`;
  if (was.kind === "S" && packet.kind === "N") return hop ? `${nameOf.router(hop.router)} declines ${letter}` : "";
  if (packet.kind === "T") return `${letter} frees ${entry}`;
  return packet.kind === "S" ? `${letter} books ${entry}` : "";
}

/** The journey of a packet that was made; a tear-down and the NACK or the ACK that it follows name each other. */
function startJourney({ packet, parent }) {
  run.journeys.set(packet.id, { connection: packet.connection, parent, steps: [] });
  if (parent !== undefined && run.journeys.has(parent)) run.journeys.get(parent).child = packet.id;
}

/** What happened to a packet, in a word; nothing for a move. */
function stepWord({ what, packet, before }) {
  if (what === "made") return packet.kind === "S" ? "launched" : "made";
  if (what === "ended") return packet.kind === "T" ? "frees, ends" : "dropped";
  if (what !== "changed") return "";
  if (before.kind !== packet.kind) return packet.kind === "A" ? "accepted" : "declined";
  if (packet.kind === "N") return "marked";
  return packet.kind === "T" ? "frees" : "books";
}

/** The joined sides with the queues whose packets leave by them. */
function findSides() {
  const leaves = (place) => ["out", "out-back", "cross"].includes(place.spot);
  run.sides = run.plan.joints.flatMap((joints, router) => joints.map(([kind], side) => ({ kind, router, side })))
    .filter(({ kind }) => kind !== JOINT.nothing)
    .map(({ router, side }) => {
      const queues = run.places.filter((place) => leaves(place) && place.router === router && place.side === side);
      return { router, side, leaving: queues.map((place) => place.number) };
    });
}

/** How many calls there are. */
function callCount() {
  return run.lines.length;
}

/** The round in which the state after `position` calls stands. */
function roundAt(position) {
  return position < callCount() ? run.calls[position].round : run.roundStarts.length - 1;
}

