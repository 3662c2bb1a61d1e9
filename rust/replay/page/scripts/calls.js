// The calls and their refusals. A call that is added to the library is one entry of CALLS.

/** Every call by its letter: name, the phase it needs (none: any), its arguments, and its text. */
const CALLS = {
  R: { name: "Read", phase: 0, turn: true, args: [], text: () => "Read" },
  X: { name: "Execute", phase: 1, turn: true, args: [], text: () => "Execute" },
  W: { name: "Write", phase: 2, turn: true, args: [], text: () => "Write" },
  L: { name: "Launch", phase: 0, args: ["active", "passive", "slot"],
    text: ([active, passive, slot]) =>
      `Launch ${nameOf.active(active)} → ${nameOf.passive(passive)} at slot ${slot}` },
  K: { name: "Close", phase: 0, args: ["active", "passive", "slot"],
    text: ([active, passive, slot]) =>
      `Close ${nameOf.active(active)} → ${nameOf.passive(passive)} from slot ${slot}` },
  P: { name: "Reply", phase: 2, args: ["passive", "choice"],
    text: ([passive, choice]) => `Reply ${nameOf.passive(passive)}: ${["decline", "accept"][choice] ?? choice}` },
  H: { name: "Look", args: ["active"],
    text: ([active]) => `Look ${nameOf.active(active)}`, answer: packetAnswer },
  D: { name: "Drop", phase: 2, args: ["active"], text: ([active]) => `Drop ${nameOf.active(active)}` },
  E: { name: "Entry", args: ["router", "side", "slot"],
    text: ([router, side, slot]) => `Entry ${nameOf.router(router)}, side ${side}, slot ${slot}`, answer: entryAnswer },
  N: { name: "Remaining", args: [], text: () => "Remaining", answer: remainingAnswer },
};

/** An answer that is a packet: kind, active, passive, slot, hub. */
function packetAnswer(answer) {
  const [kind, , , slot, hub] = answer.split(",");
  return `${KINDS[kind].term}, slot ${slot}, hub ${hub}`;
}

/** An answer that is an entry. */
function entryAnswer(answer) {
  return Number(answer) === FREE ? "free" : `booked, came in by side ${answer}`;
}

/** An answer that tells what is under way: the packets, and the most rounds that one waits for them. */
function remainingAnswer(answer) {
  const [packets, rounds] = answer.split(",").map(Number);
  return packets === 0 ? "nothing under way" : `${count(packets, "packet")} under way: wait at most ${rounds} rounds`;
}

/** The interface that a call is about, by name. */
function interfaceOf(call) {
  const kind = CALLS[call.letter].args[0];
  return nameOf[kind] ? nameOf[kind](call.args[0]) : "";
}

/** The refusals of calls on a state, in sentences about the call. */
const REFUSALS = {
  7: () => "not a state of this plan",
  8: ({ letter, phase }) => `${CALLS[letter].name} needs ${PHASES[CALLS[letter].phase]}, the phase is ${PHASES[phase]}`,
  9: () => "a number is out of range",
  10: (call) => `the pair ${nameOf.active(call.args[0])} → ${nameOf.passive(call.args[1])} is not served`,
  11: (call) => `${interfaceOf(call)}'s allowance is spent`,
  12: (call) => `${interfaceOf(call)}'s out-queue is full`,
  13: (call) => `${interfaceOf(call)}'s in-queue is empty`,
  14: (call) => `${interfaceOf(call)} has taken one in this round, its flag is up`,
  15: () => "the head is an unmarked NACK: its tear-down is not in the out-queue yet",
  16: ({ args: [active, passive, slot] }) =>
    `${nameOf.active(active)} → ${nameOf.passive(passive)} from slot ${slot} is not accepted`,
};

/** A call in words. */
function callText(call) {
  return CALLS[call.letter].text(call.args);
}

/** The answer of a call in words. */
function answerText(call) {
  if (call.refusal) {
    const sentence = REFUSALS[call.refusal];
    return `refused ${call.refusal}` + (sentence ? ": " + sentence(call) : "");
  }
  const { answer } = CALLS[call.letter];
  return answer ? answer(call.answer) : "call accepted";
}

/** A call with what it said and did, in one line. */
function callLine(call) {
  if (call.refusal) return `${callText(call)} — ${answerText(call)}`;
  if (CALLS[call.letter].answer) return `${callText(call)}: ${answerText(call)}`;
  return call.did.length > 0 ? `${callText(call)}: ${listed(call.did, 2)}` : callText(call);
}
