// The self-test of owners and turns: what the program tells must follow from the packets, the accepted
// connections and the moves by the documents' rules, which are worked out here once more.

/** Every booked entry has one owner, every free one none, and each is the one that follows. */
function checkOwners(position) {
  const { state } = shown;
  const expected = ownersFromPackets(state, position);
  state.table.forEach((side, entry) => {
    const booked = side !== 4;
    const told = state.owners[entry] >= 0;
    must(booked === told, position, `${entryText(entry)} is ${booked ? "booked, nobody's" : "free, somebody's"}`);
    const owners = expected.get(entry) ?? [];
    must(owners.length === (booked ? 1 : 0), position, `${entryText(entry)} has ${owners.length} owners by the rules`);
    const right = !booked || owners[0] === state.owners[entry] + state.holds[entry];
    must(right, position, `${entryText(entry)} is told another owner than by the rules`);
  });
}

/** The state keeps exactly the connections whose ACK was dropped and that were not closed since. */
function checkAccepted(position) {
  const { accepted } = shown.state;
  const told = acceptedBy(position);
  const same = told.size === accepted.size && [...told.keys()].every((connection) => accepted.has(connection));
  must(same, position, `the state keeps ${accepted.size} accepted connections, the calls tell ${told.size}`);
}

/** An output remembers the sender that a Write served, and only then; at Start the last in order. */
function checkTurns(position) {
  const { last } = shown.state;
  if (position === 0) report.last = run.outputs.map((output) => output.senders.length - 1);
  const call = run.calls[position - 1];
  if (position > 0 && call.letter === "W" && !call.refusal) {
    for (const [, from] of run.lines[position - 1].matchAll(/ >([0-9a-z]+),/g)) noteServed(parseInt(from, 36));
  }
  report.last.forEach((rank, output) => {
    const told = run.outputs[output].name;
    must(last[output] === rank, position, `${told} served sender ${last[output]} last, by the moves ${rank}`);
    checkTurnRow(position, output, rank);
  });
  report.places = new Map([...shown.state.packets].map(([id, packet]) => [id, packet.place]));
}

/** Where several heads wait, the details show them in the order of their turns. */
function checkTurnRow(position, output, last) {
  const { name, senders } = run.outputs[output];
  const ranks = senders.map((_, at) => (last + 1 + at) % senders.length);
  const wanted = ranks.map((rank) => senders[rank]).filter((place) => shown.state.held[place].length > 0);
  if (wanted.length < 2) return;
  const row = document.createElement("tbody");
  row.innerHTML = turnHtml(output);
  const found = [...row.querySelectorAll("small")].map((queue) => queue.textContent).join(" ");
  const told = wanted.map((place) => placeOf(place).name.replace(/ of .*/, "")).join(" ");
  must(found === told, position, `the turns of ${name} are shown as ${found}`);
}

/** A packet left its queue in a Write. */
function noteServed(id) {
  run.outputs.forEach((output, number) => {
    const rank = output.senders.indexOf(report.places.get(id));
    if (rank >= 0) report.last[number] = rank;
  });
}

/** By connection that is accepted and not closed since, its ACK. */
function acceptedBy(position) {
  const open = new Map();
  for (const { number, what, packet } of run.turns) {
    if (number >= position) break;
    if (what === "accepted") open.set(packet.connection, packet);
    if (what === "closed") open.delete(packet.connection);
  }
  return open;
}

/** By entry, the numbers of the set-ups that own it, each with how it is held. */
function ownersFromPackets(state, position) {
  const owners = new Map();
  const own = (packet, id, from, slot, hold) => {
    walkOf(packet).slice(from, from + packet.hub).forEach((hop, at) => {
      const entry = entryNumber(hop.router, hop.side, slot + at);
      owners.set(entry, [...(owners.get(entry) ?? []), id + hold]);
    });
  };
  for (const packet of acceptedBy(position).values()) own(packet, packet.id, 0, packet.slot - packet.hub, "a");
  const closers = new Set(run.turns.filter(({ what }) => what === "closed").map(({ packet }) => packet.id));
  for (const packet of state.packets.values()) {
    const { parent } = run.journeys.get(packet.id);
    const torn = closers.has(packet.id) ? "c" : "d";
    if (packet.kind === "T") own(packet, parent, hopsBehind(state, packet), packet.slot, torn);
    else own(packet, packet.id, 0, packet.slot - packet.hub, packet.kind === "N" ? "l" : "w");
  }
  return owners;
}

/** How many routers of its walk a tear-down has been handled by. */
function hopsBehind(state, packet) {
  const place = placeOf(packet.place);
  if (place.spot === "active-out") return 0;
  const at = walkOf(packet).findIndex((hop) => hop.router === place.router);
  const handled = place.spot === "unit" && state.handled[packet.place] && state.held[packet.place][0] === packet.id;
  return at + (handled || place.spot === "from-unit" || place.spot === "out" ? 1 : 0);
}

/** After each decline the question wants exactly the entries that its hub tells. */
function checkQuestions() {
  for (const [number, packets] of [...run.declines].slice(0, 40)) {
    setState(number + 1);
    const wanted = ownersFromPackets(shown.state, number + 1);
    for (const packet of packets) {
      const held = [...heldEntries(packet.id)];
      const right = held.length === packet.hub && held.every((entry) => wanted.get(entry)?.[0] === packet.id + "l");
      const question = `the question of ${letterOf(packet.connection)}`;
      must(right, number + 1, `${question} has ${held.length} entries, its hub is ${packet.hub}`);
    }
  }
}
