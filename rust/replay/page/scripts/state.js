// The state after a call: what is in which place, and snapshots for steps back and jumps.

/** A snapshot is kept after each so many calls. */
const SNAPSHOT_EVERY = 32;

/** A place by its number. */
function placeOf(number) {
  return run.places[number] ?? stop(`there is no place ${number}`);
}

/** A packet by its number. */
function packetOf(state, id) {
  return state.packets.get(id) ?? stop(`there is no packet ${id}`);
}

/** Whether a place is a wire. */
function isWire(place) {
  return place.capacity === 0;
}

/** The state that Start leaves. */
function startState() {
  const { plan, places } = run;
  const entries = plan.routers * 4 * plan.slots;
  return {
    phase: 0,
    slot: 0,
    held: places.map(() => []),
    packets: new Map(),
    flags: new Uint8Array(places.length),
    handled: new Uint8Array(places.length),
    picked: new Set(),
    table: new Int8Array(entries).fill(FREE),
    owners: new Int32Array(entries).fill(-1),
    holds: new Array(entries).fill(""),
    allowances: new Array(plan.actives).fill(plan.allowance),
    accepted: new Set(),
    last: run.outputs.map((output) => output.senders.length - 1),
  };
}

/** A copy that can be changed. Lists of places are never changed in place, so they are shared. */
function copyState(state) {
  return {
    ...state,
    held: state.held.slice(),
    packets: new Map([...state.packets].map(([id, packet]) => [id, { ...packet }])),
    flags: state.flags.slice(),
    handled: state.handled.slice(),
    picked: new Set(state.picked),
    table: state.table.slice(),
    owners: state.owners.slice(),
    holds: state.holds.slice(),
    allowances: state.allowances.slice(),
    accepted: new Set(state.accepted),
    last: state.last.slice(),
  };
}

/** A packet joins the end of a place. */
function enter(state, place, id) {
  state.held[place] = state.held[place].concat(id);
}

/** A packet leaves the head of its place. */
function leave(state, packet) {
  const held = state.held[packet.place];
  if (held[0] !== packet.id) stop(`packet ${packet.id} is not the head of ${placeOf(packet.place).name}`);
  state.held[packet.place] = held.slice(1);
}

/** The state after `position` calls, from the last snapshot before it. */
function stateAt(position) {
  const at = Math.min(Math.floor(position / SNAPSHOT_EVERY), run.snapshots.length - 1);
  const state = copyState(run.snapshots[at]);
  for (let number = at * SNAPSHOT_EVERY; number < position; number += 1) applyCall(state, number);
  return state;
}

/** The number of an entry in the table. */
function entryNumber(router, side, slot) {
  const { slots } = run.plan;
  return (router * 4 + side) * slots + (((slot % slots) + slots) % slots);
}

/** Router, side and slot of an entry. */
function entryParts(entry) {
  const { slots } = run.plan;
  const row = Math.floor(entry / slots);
  return { router: Math.floor(row / 4), side: row % 4, slot: entry % slots };
}

/** The connection that owns an entry; -1 for none. */
function ownerOf(state, entry) {
  return state.owners[entry] < 0 ? -1 : run.journeys.get(state.owners[entry]).connection;
}

/** Whether an entry is booked. */
function isBooked(state, entry) {
  return state.table[entry] !== FREE;
}

/** The head of an active's in-queue. */
function headFor(state, active) {
  const { number } = run.places.find((place) => place.spot === "active-in" && place.active === active);
  return state.packets.get(state.held[number][0]);
}

/** The senders of an output that have a packet, in the order in which it looks at them: from the one behind the
    last served on. */
function inTurn(state, output) {
  const { senders } = run.outputs[output];
  const first = state.last[output] + 1;
  return senders.map((_, at) => senders[(first + at) % senders.length]).filter((place) => state.held[place].length > 0);
}

/** The sender that an output served last. */
function lastServed(state, output) {
  return placeOf(run.outputs[output].senders[state.last[output]]);
}

/** The credit of every queue: capacity less what is queued, on a wire to it, and its raised flag. */
function creditsOf(state) {
  const credits = run.places.map((place, number) => place.capacity - state.held[number].length - state.flags[number]);
  for (const packet of state.packets.values()) {
    if (packet.bound >= 0) credits[packet.bound] -= 1;
  }
  return credits;
}
