// What a call did, in sentences. Each sentence is { html, key }: key sentences are shown bold.

/** The walk of a pair: router, side it came in by and side it leaves by, one after the other. */
function walkOf(packet) {
  return run.plan.walks.get(packet.active + "," + packet.passive);
}

/** Where on its walk a packet's router is. */
function hopAt(packet) {
  const { router } = placeOf(packet.place);
  return walkOf(packet).find((hop) => hop.router === router);
}

/** An entry in words: router, side and slot. */
function entryText(entry) {
  const { router, side, slot } = entryParts(entry);
  return `${html.router(router)} side ${side} slot ${slot}`;
}

/** All sentences about a call: its events, the state before it and the one after. */
function explain(call, events, before, after) {
  if (call.refusal) return [{ html: "Nothing changed: a refusal alters no byte." }];
  const sentence = (event) => eventSentence(call, event, foundBy(event, events, before), after);
  const sentences = events.map(sentence).filter(Boolean);
  if (call.letter === "X") sentences.push(...executeSentences(after, sentences.length));
  if (call.letter === "R" || call.letter === "W") sentences.push(...moveSentences(call, events));
  if (call.letter === "H") sentences.push(lookSentence(call, after));
  if (call.letter === "N") sentences.push(remainingSentence(after));
  return sentences;
}

/** The place at a unit where an event's packet was handled, if it was. */
function unitOf({ what, packet, before }) {
  const place = what === "changed" || what === "ended" ? placeOf((before ?? packet).place) : null;
  return place?.spot === "unit" ? place : null;
}

/** The state as a unit found it when it handled a declined set-up: the one before the call, with what the heads of
    lower sides booked and freed in the same call. */
function foundBy(event, events, before) {
  const unit = unitOf(event);
  if (!unit || event.packet.kind !== "N") return before;
  const { router, side } = unit;
  const isEarlier = (other) => unitOf(other)?.router === router && unitOf(other).side < side;
  const earlier = events.filter(isEarlier).sort((one, other) => unitOf(one).side - unitOf(other).side);
  const found = copyState(before);
  for (const { packet, before: was = packet } of earlier) {
    const hop = hopAt(was);
    const entry = entryNumber(router, hop.side, was.slot);
    if (was.kind === "T") found.table[entry] = FREE;
    else if (packet.kind === "S") setBooked(found, entry, hop, packet);
  }
  return found;
}

/** An entry is booked for a set-up. */
function setBooked(state, entry, hop, packet) {
  state.table[entry] = hop.cameIn;
  state.owners[entry] = packet.id;
  state.holds[entry] = "w";
}

/** The sentence about an event, if it has one of its own. */
function eventSentence(call, event, before, after) {
  if (event.what === "made") return isLaunch(event) ? launchSentence(event, after) : tearDownSentence(call, event);
  if (event.what === "changed") return changeSentence(event, before);
  if (event.what === "ended") return endSentence(event, after);
  return null;
}

/** A set-up joins an out-queue. */
function launchSentence({ packet }, after) {
  const left = after.allowances[packet.active];
  return { html: `Set-up ${chip(packet.connection)} joins ${html.place(packet.place)}. Allowance left: ${left}.` };
}

/** An active sends a tear-down: to close a connection, or after a NACK as the answer to it. */
function tearDownSentence(call, { packet }) {
  const routers = walkOf(packet).slice(0, packet.hub).map((hop) => html.router(hop.router));
  const sends = isClose(call) ? "closes the connection with tear-down" : "answers the NACK with tear-down";
  const figures = `slot ${packet.slot}, hub ${packet.hub}`;
  const made = `${html.active(packet.active)} ${sends} ${chip(packet.connection)}: ${figures}.`;
  const frees = `It will free exactly ${count(packet.hub, "router")} (${listed(routers, 5)}) and end there.`;
  return { html: `${made} ${frees}`, key: true };
}

/** A packet changed where it is. */
function changeSentence({ packet, before }, state) {
  if (before.kind === "S" && packet.kind === "S") return bookSentence(packet, before);
  if (packet.kind === "A" && before.kind === "S") return acceptSentence(packet);
  if (packet.kind === "N" && before.kind === "S") return declineSentence(packet, before, state);
  if (packet.kind === "T") return freeSentence(packet, before, `hub falls to ${packet.hub}`);
  return null;
}

/** A unit books an entry. */
function bookSentence(packet, before) {
  const hop = hopAt(before);
  return { html: `The unit of ${html.router(hop.router)} books side ${hop.side}, slot ${before.slot} for ` +
    `${chip(packet.connection)}: hub ${packet.hub}, next slot ${packet.slot}.` };
}

/** A passive accepts. */
function acceptSentence(packet) {
  return { html: `${html.passive(packet.passive)} accepts ${chip(packet.connection)}: ` +
    `an ACK with slot ${packet.slot}, hub ${packet.hub}.` };
}

/** A unit or a passive declines. What stays booked is left out while the student is asked for it. */
function declineSentence(packet, before, state) {
  const stays = packet.hub === 0 ? "Nothing was booked." :
    `${count(packet.hub, "router")} ${packet.hub === 1 ? "stays" : "stay"} booked until a tear-down has followed.`;
  const told = shown.question ? "" : " " + stays;
  const nack = `The NACK keeps slot ${packet.slot} and hub ${packet.hub}.`;
  return { html: `${decliner(packet, before, state)} ${nack}${told}`, key: true };
}

/** Who declined, and why. */
function decliner(packet, before, state) {
  const declined = `declines ${chip(packet.connection)}`;
  if (placeOf(before.place).router === undefined) return `${html.passive(packet.passive)} ${declined}.`;
  const hop = hopAt(before);
  const entry = entryNumber(hop.router, hop.side, before.slot);
  const owner = ownerOf(state, entry);
  const by = owner < 0 ? "" : ` by ${chip(owner)} (${HOLDS[state.holds[entry]].word})`;
  const why = isBooked(state, entry) ? `side ${hop.side}, slot ${before.slot} is booked${by}` :
    `slot ${before.slot} is the last free entry of side ${hop.side}, which is kept`;
  return `The unit of ${html.router(hop.router)} ${declined}: ${why}.`;
}

/** A tear-down frees an entry. */
function freeSentence(packet, before, then) {
  const hop = hopAt(before);
  return { html: `Tear-down ${chip(packet.connection)} frees side ${hop.side}, slot ${before.slot} of ` +
    `${html.router(hop.router)}; ${then}.`, key: true };
}

/** A Look: what stands at the head, and what is not yet so. */
function lookSentence({ args: [active] }, state) {
  const packet = headFor(state, active);
  const head = `${packetChip(packet)} is the head of ${html.place(packet.place)}.`;
  const then = packet.kind === "A" ? "The connection is accepted when it is dropped." :
    packet.hub > 0 ? "Its tear-down is not in the out-queue yet: it cannot be dropped." : "It is marked.";
  return { html: `${head} ${then} A Look changes nothing.` };
}

/** What Remaining tells of, and what is supposed. */
function remainingSentence(state) {
  if (state.packets.size === 0) return { html: "Every queue and wire is empty. Remaining changes nothing." };
  return { html: "If nobody launches or closes from a READ on, and in every WRITE each passive replies and each active " +
    "drops that can, the network is empty after at most so many rounds. Remaining changes nothing." };
}

/** A packet ends: a tear-down at its last router, an answer that is dropped. */
function endSentence({ packet }, after) {
  if (packet.kind === "T") return freeSentence(packet, packet, "hub was 1, it ends");
  const left = after.allowances[packet.active];
  const start = run.connections[packet.connection].slot;
  const back = `Allowance back to ${left}.`;
  if (packet.kind !== "A") return { html: `The NACK of ${chip(packet.connection)} is taken off. ${back}` };
  const accepted = `Connection ${chip(packet.connection)} ${html.pair(packet)}, start slot ${start}, is accepted.`;
  return { html: `${accepted} ${back}`, key: true };
}

/** What EXECUTE says beside its events: sides that send nobody, whose turn it is, and who was picked. */
function executeSentences(state, others) {
  const sentences = [...waitingSentences(state), ...turnSentences(state)];
  const picked = [...state.picked].map((id) => packetChip(state.packets.get(id)));
  if (picked.length > 0) sentences.push({ html: `Picked to leave: ${listed(picked, 12, " ")}` });
  if (others + sentences.length === 0) sentences.push({ html: "Nothing to handle, nobody to send." });
  return sentences;
}

/** Sides whose entry for the current slot is booked while packets wait to leave by them. */
function waitingSentences(state) {
  const sentences = [];
  for (const { router, side, leaving } of run.sides) {
    if (!isBooked(state, entryNumber(router, side, state.slot))) continue;
    const heads = leaving.filter((place) => state.held[place].length > 0)
      .map((place) => packetChip(state.packets.get(state.held[place][0])));
    if (heads.length === 0) continue;
    const booked = `Side ${side} of ${html.router(router)} sends nobody: slot ${state.slot} is booked.`;
    sentences.push({ html: `${booked} Waiting: ${heads.join(" ")}` });
  }
  return sentences;
}

/** Outputs that picked one of several heads: whose turn it was, and who waits. */
function turnSentences(state) {
  const sentences = [];
  run.outputs.forEach((output, number) => {
    const heads = inTurn(state, number).map((place) => state.packets.get(state.held[place][0]));
    const picked = heads.find((packet) => state.picked.has(packet.id));
    if (heads.length < 2 || !picked) return;
    const others = heads.filter((packet) => packet !== picked).map(packetChip);
    const last = escapeText(lastServed(state, number).name);
    sentences.push({ html: `At ${escapeText(output.name)} it is the turn of ${packetChip(picked)}: ${last} went last. ` +
      `Waiting: ${others.join(" ")}` });
  });
  return sentences;
}

/** The moves of READ and WRITE. */
function moveSentences(call, events) {
  const moves = events.filter((event) => event.what === "moved");
  if (moves.length === 0) {
    return [{ html: call.letter === "R" ? "No packet was on a wire." : "Nobody was picked. The slot grows by one." }];
  }
  const moved = ({ packet, from }) => (call.letter === "R" ? `joins ${html.place(packet.place)}` :
    `leaves ${html.place(from)} by the ${html.place(packet.place)}`);
  const sentences = moves.slice(0, 6).map((move) => ({ html: `${packetChip(move.packet)} ${moved(move)}` }));
  if (moves.length > 6) sentences.push({ html: `and ${moves.length - 6} more` });
  return sentences;
}
