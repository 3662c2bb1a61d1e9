// The list of calls. Only the rows in view are in the page, so that long runs stay quick.

/** The height of a row. */
const ROW = 24;

/** The list's height and how far it is scrolled, measured only when they change: measuring is slow. */
const list = { height: 300, top: 0 };

/** Measures the list. */
function measureList() {
  part("calls-rows").style.height = callCount() * ROW + "px";
  list.height = part("calls").clientHeight || 300;
  list.top = part("calls").scrollTop;
}

/** Draws the rows in view; `follow` brings the current call into view first. */
function drawCallList(follow) {
  if (follow) followCall();
  const first = Math.max(0, Math.floor(list.top / ROW) - 2);
  const last = Math.min(callCount(), first + Math.ceil(list.height / ROW) + 5);
  part("calls-rows").innerHTML = run.calls.slice(first, last).map((call, at) => callRow(call, first + at)).join("");
}

/** Scrolls to the current call where it is out of view. */
function followCall() {
  const y = (shown.position - 1) * ROW;
  if (y >= list.top + ROW && y <= list.top + list.height - 3 * ROW) return;
  const most = Math.max(0, callCount() * ROW - list.height);
  list.top = Math.min(most, Math.max(0, Math.floor((y - list.height / 2) / ROW) * ROW));
  part("calls").scrollTop = list.top;
}

/** The list got another size. Other panes are left as they are: somebody may be clicking there. */
function onListResize() {
  const before = list.height;
  measureList();
  if (shown.pane === "calls" && list.height !== before) drawCallList(false);
}

/** The list was scrolled by hand; where the page scrolled it, the rows are there already. */
function onListScroll() {
  const top = part("calls").scrollTop;
  if (top === list.top) return;
  list.top = top;
  drawCallList(false);
}

/** The row of a call: number, when, and what. */
function callRow(call, number) {
  const line = escapeText(callLine(call));
  const classes = ["row"];
  if (number === shown.position - 1) classes.push("current");
  if (number >= shown.position) classes.push("later");
  if (call.refusal) classes.push("refused");
  else if (CALLS[call.letter].turn && call.did.length === 0) classes.push("turn");
  return `<div class="${classes.join(" ")}" data-call="${number}" style="top:${number * ROW}px" title="${line}">` +
    `<span>${number + 1}</span><span>round ${call.round}</span><span>${call.refusal ? "! " : ""}${line}</span></div>`;
}

/** What the current call did, above the list. */
function drawNow() {
  const call = run.calls[shown.position - 1];
  part("now").innerHTML = call ? nowHtml(call, explain(call, shown.events, shown.before, shown.state)) : startHtml();
}

/** The card before the first call. */
function startHtml() {
  const { routers, actives, passives, slots, walks } = run.plan;
  const parts = [count(routers, "router"), count(actives, "active"), count(passives, "passive"), `${slots} slots`,
    count(walks.size, "served pair")];
  return `<h2>Start</h2><p>${parts.join(", ")}; ${count(callCount(), "call")}.</p>` +
    `<p class="dim">${escapeText(run.note)}</p>` +
    "<p>Press <kbd>→</kbd> for the first call, <kbd>?</kbd> for keys and signs.</p>";
}

/** The card of a call: itself, its answer, what happened. */
function nowHtml(call, sentences) {
  const items = sentences.map(({ html, key }) => `<li${key ? ' class="key"' : ""}>${html}</li>`).join("");
  const answer = `<span class="answer${call.refusal ? " refused" : ""}">${escapeText(answerText(call))}</span>`;
  return `<h2>${escapeText(callText(call))}</h2>${answer}<ul>${items}</ul>`;
}
