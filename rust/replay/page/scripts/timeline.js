// The timeline: rounds and phases above, a lane for each kind of moment, and the cursor.

/** Heights of the timeline. */
const TIMELINE = { top: 17, lane: 10, phase: 3 };

/** The colours of the three phases, light enough to stay behind the lanes. */
const PHASE_COLOURS = ["#56B4E9", "#E69F00", "#009E73"];

/** The room for the names of the lanes. */
function gutter() {
  return innerWidth <= NARROW ? 14 : 92;
}

/** A colour of the page's style. */
function styleColour(name) {
  return getComputedStyle(document.documentElement).getPropertyValue(name);
}

/** Draws the whole timeline. */
function drawTimeline() {
  const canvas = part("timeline").querySelector("canvas");
  const height = TIMELINE.top + TIMELINE.lane * LANES.length;
  part("timeline").style.height = height + "px";
  const width = part("timeline").clientWidth;
  if (width === 0) return;
  const ratio = devicePixelRatio || 1;
  canvas.width = width * ratio;
  canvas.height = height * ratio;
  const pen = canvas.getContext("2d");
  pen.scale(ratio, ratio);
  pen.translate(gutter(), 0);
  pen.font = "10.5px system-ui,'DejaVu Sans',sans-serif";
  drawRounds(pen, width - gutter(), height);
  drawPhases(pen, width - gutter());
  LANES.forEach((lane, row) => drawLane(pen, lane, TIMELINE.top + row * TIMELINE.lane, width - gutter()));
}

/** A line and a number for every round that has room for them. */
function drawRounds(pen, width, height) {
  const rounds = run.roundStarts.length - 1;
  const each = width / Math.max(1, rounds);
  const step = [1, 2, 5, 10, 20, 50, 100, 200, 500, 1000, 2000].find((size) => each * size >= 50) ?? 5000;
  pen.strokeStyle = styleColour("--line");
  pen.fillStyle = styleColour("--dim");
  let free = 0;
  for (let round = 0; round <= rounds; round += step) {
    const x = Math.round((run.roundStarts[round] / Math.max(1, callCount())) * width) + 0.5;
    pen.beginPath();
    pen.moveTo(x, 0);
    pen.lineTo(x, height);
    pen.stroke();
    const text = round === 0 ? "round 0" : String(round);
    const end = x + 3 + pen.measureText(text).width;
    if (x < free || end > width) continue;
    pen.fillText(text, x + 3, 10);
    free = end + 4;
  }
}

/** The phase of each call, where calls are wide enough to be seen. */
function drawPhases(pen, width) {
  const each = width / Math.max(1, callCount());
  if (each < 3) return;
  pen.globalAlpha = 0.55;
  run.calls.forEach((call, number) => {
    pen.fillStyle = PHASE_COLOURS[call.phase];
    pen.fillRect(number * each, TIMELINE.top - TIMELINE.phase - 1, each - (each > 6 ? 1 : 0), TIMELINE.phase);
  });
  pen.globalAlpha = 1;
}

/** A lane: its sign and name, and a mark for each of its calls. */
function drawLane(pen, lane, y, width) {
  pen.fillStyle = styleColour("--dim");
  pen.fillText(gutter() > 40 ? `${lane.sign} ${lane.name}` : lane.sign, -gutter(), y + TIMELINE.lane - 3);
  pen.fillStyle = lane.colour;
  const each = width / Math.max(1, callCount());
  for (const number of run.lanes[lane.id]) {
    pen.fillRect((number + 0.5) * each - 1.5, y + 2, Math.max(3, Math.min(7, each)), TIMELINE.lane - 4);
  }
}

/** Puts the cursor after the calls that were made. */
function drawCursor() {
  const share = callCount() ? shown.position / callCount() : 0;
  part("cursor").style.left = `calc(${gutter() * (1 - share)}px + ${share * 100}%)`;
}

/** The position under a point of the timeline. */
function positionUnder(x) {
  const room = part("timeline").getBoundingClientRect();
  const share = (x - room.left - gutter()) / (room.width - gutter());
  return Math.round(share * callCount());
}
