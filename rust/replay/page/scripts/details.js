// Details of what was chosen: the journey of a packet, or the queues of a router.

/** Draws the details. */
function drawDetails() {
  const pane = part("details");
  if (shown.packet !== null && run.journeys.has(shown.packet)) pane.innerHTML = journeyHtml(shown.packet);
  else if (shown.router !== null) pane.innerHTML = routerHtml(shown.router);
  else pane.innerHTML = "<p>Click a packet for its journey, a router for its queues, a booked cell for its owner.</p>";
}

/** A packet's journey, one row for each step, the current one marked. */
function journeyHtml(id) {
  const { connection, steps } = run.journeys.get(id);
  const told = run.connections[connection];
  const current = steps.filter((step) => step.call < shown.position).length - 1;
  const rows = steps.map((step, at) => stepHtml(step, at === current)).join("");
  return `<h3>${chip(connection)} ${html.pair(told)}, start slot ${told.slot}</h3>` +
    `<p>Journey of this packet${relativesHtml(id)}</p>` +
    `<table>${tableHead("round", "what", "where", "slot", "hub")}<tbody>${rows}</tbody></table>`;
}

/** Links between a tear-down and the NACK that it answers, or the ACK whose connection it closes. */
function relativesHtml(id) {
  const { parent, child } = run.journeys.get(id);
  if (parent !== undefined) {
    const closes = run.journeys.get(parent).steps.at(-1).kind === "A";
    const what = closes ? "made to close the connection of" : "made for";
    return `: a tear-down, ${what} <a href="#" data-journey="${parent}">its ${closes ? "ACK" : "NACK"}</a>`;
  }
  return child === undefined ? "" : `; see <a href="#" data-journey="${child}">its tear-down</a>`;
}

/** A step of a journey. */
function stepHtml(step, current) {
  const call = run.calls[step.call];
  const cells = [`${call.round} ${PHASES[call.phase]}`, `${KINDS[step.kind].sign} ${step.word}`, html.place(step.place),
    step.slot, step.hub];
  return `<tr class="go${current ? " current" : ""}" data-call="${step.call}"><td>${cells.join("</td><td>")}</td></tr>`;
}

/** Whose turn it is at a router, and its queues with their packets, credits and flags. */
function routerHtml(router) {
  const credits = creditsOf(shown.state);
  const queues = run.places.filter((place) => place.router === router && !isWire(place) && place.credit);
  const used = queues.filter(isJoined);
  const rows = used.map((place) => queueHtml(place, credits)).join("");
  const head = tableHead("queue", "packets, head first", "capacity", "credit", "flag");
  return `<h3>${html.router(router)}</h3>${turnsHtml(router)}<table>${head}<tbody>${rows}</tbody></table>`;
}

/** Whose turn it is at each of a router's outputs that several senders share. */
function turnsHtml(router) {
  const rows = run.outputs.map((output, number) => (placeOf(output.senders[0]).router === router ? turnHtml(number) : ""));
  return `<table>${tableHead("way out", "went last", "next, of those that wait")}` +
    `<tbody>${rows.join("")}</tbody></table>`;
}

/** The row of an output: the sender that it served last, and the heads that wait, in the order of their turns. */
function turnHtml(output) {
  const { state } = shown;
  const waiting = inTurn(state, output).map((place) =>
    `${packetChip(state.packets.get(state.held[place][0]))} <small>${queueShort(placeOf(place))}</small>`);
  const cells = [escapeText(run.outputs[output].name), queueShort(lastServed(state, output)), waiting.join(" ")];
  return `<tr data-output="${output}"><td>${cells.join("</td><td>")}</td></tr>`;
}

/** A router's queue without the router. */
function queueShort(place) {
  return escapeText(place.name.replace(/ of .*/, ""));
}

/** Whether the side that a queue belongs to is joined. */
function isJoined(place) {
  return run.plan.joints[place.router][place.side][0] !== JOINT.nothing;
}

/** The row of a queue. */
function queueHtml(place, credits) {
  const { state } = shown;
  const packets = state.held[place.number].map((id) => {
    const packet = state.packets.get(id);
    return `${packetChip(packet)} <small>slot ${packet.slot} hub ${packet.hub}</small>`;
  });
  const handled = state.handled[place.number] ? " <small>handled</small>" : "";
  const cells = [queueShort(place), packets.join("<br>") + handled, place.capacity,
    credits[place.number], state.flags[place.number] ? "up" : ""];
  return `<tr><td>${cells.join("</td><td>")}</td></tr>`;
}
