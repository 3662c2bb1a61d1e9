// The self-test: goes through every state and compares what is drawn with the data. Open the page with
// #selftest at its end. Here: states, calls and moments; what is drawn and owners have files of their own.

/** What the self-test found. */
const report = { faults: [], packets: 0, booked: 0, tables: 0, round: 0, last: [], places: new Map() };

/** Notes a fault unless all is good. */
function must(good, position, sentence) {
  if (!good && report.faults.length < 20) report.faults.push(`after ${position} calls: ${sentence}`);
}

/** Runs the self-test and writes its report into the page. */
function selfTest() {
  const began = performance.now();
  const small = shown.state.table.length <= 256;
  for (let position = 0; position <= callCount(); position += 1) {
    setState(position);
    drawState();
    checkState(position);
    checkPackets(position);
    checkOwners(position);
    checkAccepted(position);
    checkTurns(position);
    checkCells(position, small || position % 97 === 0 || position === callCount());
    checkClock(position);
    if (position > 0) checkCall(position);
  }
  checkJumps();
  checkMoments();
  checkQuestions();
  checkLabels();
  checkTrays();
  checkSizes();
  writeReport(performance.now() - began);
}

/** The state is the recorded one, and no queue is over its capacity. */
function checkState(position) {
  const found = checkSum(stateText(shown.state));
  const recorded = recordedSum(position);
  must(found === recorded, position, `the state has check sum ${found}, recorded ${recorded}`);
  const credits = creditsOf(shown.state);
  run.places.forEach((place, number) => {
    const held = shown.state.held[number].length;
    must(held <= Math.max(1, place.capacity), position, `${place.name} holds ${held}`);
    must(!place.credit || credits[number] >= 0, position, `${place.name} has no credit for what it holds`);
  });
}

/** A refused call changed nothing, and an accepted one was made in its phase. */
function checkCall(position) {
  const { letter, refusal, phase } = run.calls[position - 1];
  const tokens = run.lines[position - 1].split(" ").length - 2;
  must(!refusal || tokens === 0, position, "a refused call changed something");
  if (letter === "H") checkLook(position, tokens);
  if (letter === "N") checkRemaining(position, tokens);
  const needed = { R: 0, X: 1, W: 2, L: 0, K: 0, P: 2, D: 2 }[letter];
  const fits = needed === undefined || (needed !== phase) === (refusal === 8);
  must(fits, position, `the call ${letter} does not fit the phase before it`);
}

/** A Look changed nothing, and gave the head; 13 where there is none. */
function checkLook(position, tokens) {
  const { args: [active], refusal, answer } = run.calls[position - 1];
  must(tokens === 0, position, "a Look changed something");
  if (refusal === 9) return;
  const head = headFor(shown.state, active);
  const { kind, passive, slot, hub } = head ?? {};
  const told = head ? [kind, active, passive, slot, hub].join() : "13";
  must(told === (answer || String(refusal)), position, `a Look gave ${answer || refusal}, at the head is ${told}`);
}

/** Remaining changed nothing, and gave the packets that are there, with 256 rounds for each and each slot. */
function checkRemaining(position, tokens) {
  const { answer } = run.calls[position - 1];
  must(tokens === 0, position, "Remaining changed something");
  const packets = shown.state.packets.size;
  const told = [packets, 256 * run.plan.slots * packets].join();
  must(answer === told, position, `Remaining gave ${answer}, there are ${told}`);
}

/** Jumps give the same states as single steps. */
function checkJumps() {
  for (let jump = 0; jump < 40; jump += 1) {
    const position = Math.floor((callCount() + 1) * ((jump * 0.618034) % 1));
    setState(position);
    must(isRecorded(shown.state, position), position, "a jump gives another state");
  }
}

/** The lanes have the calls that the lines tell. */
function checkMoments() {
  const matching = (pattern) => run.lines.filter((line) => pattern.test(line)).length;
  const lines = { refusal: matching(/^\S+!/), launch: matching(/^L[\d,]+ /), close: matching(/^K[\d,]+ /) };
  for (const [lane, calls] of Object.entries({ ...lines, ...countKinds() })) {
    const found = run.lanes[lane].length;
    must(found === calls, callCount(), `the lane ${lane} has ${found} calls, the lines ${calls}`);
  }
}

/** How many calls decline a set-up, accept by dropping an ACK, and make or end a tear-down, by the kinds in the
    lines alone. */
function countKinds() {
  const kinds = new Map();
  const found = { decline: 0, accepted: 0, "tear-down": 0 };
  for (const line of run.lines) {
    const tokens = [...line.matchAll(/ ([-+=])([0-9a-z]+)(?:,([STAN]))?/g)];
    const declines = ([, sign, id, kind]) => sign === "=" && kind === "N" && kinds.get(id) === "S";
    const tears = ([, sign, id, kind]) => (sign === "+" && kind === "T") || (sign === "-" && kinds.get(id) === "T");
    const accepts = ([, sign, id]) => sign === "-" && kinds.get(id) === "A" && line.startsWith("D");
    found.decline += tokens.some(declines) ? 1 : 0;
    found.accepted += tokens.some(accepts) ? 1 : 0;
    found["tear-down"] += tokens.some(tears) ? 1 : 0;
    for (const [, , id, kind] of tokens) if (kind) kinds.set(id, kind);
  }
  return found;
}

/** Writes the report where the tests read it. */
function writeReport(milliseconds) {
  const figures = [`${callCount()} calls`, `${report.packets} packets drawn`, `${report.booked} booked cells`,
    `${report.tables} full tables`, `${run.connections.length} connections`, `${Math.round(milliseconds)} ms`];
  const first = (report.faults.length ? "FAIL " : "PASS ") + figures.join(", ");
  const box = document.createElement("pre");
  box.id = "selftest";
  box.textContent = [first, ...report.faults].join("\n");
  document.title = first;
  document.body.append(box);
}
