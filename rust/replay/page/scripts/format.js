// The recording: reads the data block of the page and the lines of its calls.
// The format `pandabrass-run/4` is described in the README of the crate.

/** The format this page shows, and its number. */
const FORMAT = { name: "pandabrass-run", number: 4 };

/** Refuses data of another format, and data that is newer or older than this page. */
function checkFormat(format) {
  const [name, number] = String(format).split("/");
  if (name !== FORMAT.name || !/^\d+$/.test(number)) {
    stop(`The data is no recorded run: its format is '${format}', this page shows ${FORMAT.name}/${FORMAT.number}.`);
  }
  const age = Number(number) > FORMAT.number ? "newer" : "older";
  if (Number(number) !== FORMAT.number) {
    stop(`The data is ${age} than this page: format ${number}, this page shows format ${FORMAT.number}.`);
  }
}

/** The data block as an object. */
function parseBlock(text) {
  try {
    return JSON.parse(text);
  } catch (error) {
    return stop(`The data block of the page is damaged: ${error.message}.`);
  }
}

/** Every part that a recording must have. */
const PARTS = ["title", "note", "plan", "names", "places", "outputs", "connections", "start", "calls"];

/** The recording, with its calls as lines that are not read yet. */
function readRun(text) {
  const data = parseBlock(text);
  checkFormat(data.format);
  for (const part of PARTS) {
    if (data[part] === undefined) stop(`The data block of the page has no '${part}'.`);
  }
  return {
    ...data,
    plan: readPlan(data.plan),
    places: data.places.map(readPlace),
    outputs: data.outputs.map(([name, senders]) => ({ name, senders })),
    connections: data.connections.map(([active, passive, slot, letter]) => ({ active, passive, slot, letter })),
    lines: data.calls === "" ? [] : data.calls.split("\n"),
  };
}

/** The plan's numbers under their names. */
function readPlan({ R, A, P, S, allowance, joint, walk, hex }) {
  const pairs = new Map();
  for (const [active, passive, numbers] of walk) pairs.set(active + "," + passive, readWalk(numbers));
  return { routers: R, actives: A, passives: P, slots: S, allowance, joints: joint, walks: pairs, hex };
}

/** A walk: three numbers for each router, itself, the side the walk came in by and the one it leaves by. */
function readWalk(numbers) {
  const hops = [];
  for (let at = 0; at < numbers.length; at += 3) {
    hops.push({ router: numbers[at], cameIn: numbers[at + 1], side: numbers[at + 2] });
  }
  return hops;
}

/** A place: spot, name, label, capacity (0 for a wire), whether it has credit, and the spot's numbers. */
function readPlace([spot, name, label, capacity, credit, ...numbers], number) {
  if (!SPOTS[spot]) stop(`The data is newer than this page: it has a place '${spot}' that this page cannot draw.`);
  const place = { number, spot, name, label, capacity, credit: credit === 1 };
  SPOTS[spot].numbers.forEach((field, at) => { place[field] = numbers[at]; });
  return place;
}

/** How the first part of a line is written: letter, arguments, then a refusal or an answer. */
const CALL_FORM = /^([A-Z])(\d+(?:,\d+)*)?(?:!(\d+)|=([A-Z0-9,]+))?$/;

/** The call of a line: letter, arguments, refusal (0 for none), answer, check sum. */
function readCall(line, number) {
  const [first, check] = line.split(" ", 2);
  const parts = CALL_FORM.exec(first);
  const readable = parts && /^[0-9a-f]{1,8}$/.test(check);
  if (!readable) damagedLine(number, line, "its call or its check sum is not readable");
  const kind = CALLS[parts[1]] ?? damagedLine(number, line, `this page knows no call '${parts[1]}'`);
  const args = parts[2] === undefined ? [] : parts[2].split(",").map(Number);
  if (args.length !== kind.args.length) damagedLine(number, line, "its call has another number of arguments");
  return { letter: parts[1], args, refusal: Number(parts[3] || 0), answer: parts[4] || "", check };
}

/** Stops with the line that is damaged and what is wrong with it; lines count from 1. */
function damagedLine(number, line, why) {
  const shown = line.length > 60 ? line.slice(0, 60) + " .." : line;
  stop(`Line ${number + 1} of the recording is damaged: ${why}. The line is '${shown}'.`);
}
