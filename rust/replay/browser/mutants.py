"""Changed data and changed drawing: the page's own test must fail on each."""

import re

# Changes of the recording: name, what is looked for, what is put.
DATA = [
    ("a booking in another slot", " t7,0 o7,1,w", " t6,0 o6,1,w"),
    ("an entry with another side", " t7,0", " t7,2"),
    ("an entry not freed", " t7,4 o7", ""),
    ("a packet to another wire", ">1,1v,7", ">1,1w,7"),
    ("a packet bound for another queue", ">1,1v,7", ">1,1v,8"),
    ("a hub one more", "=1,N,0,1", "=1,N,0,2"),
    ("a slot one more", "=1,S,0,1", "=1,S,1,1"),
    ("an allowance not taken", "a0,0", "a0,1"),
    ("a flag not raised", " ^x", ""),
    ("a mark not set", " h7,1", ""),
    ("a packet not picked", "=1,S,0,1 *1", "=1,S,0,1"),
    ("a line left out", "\\nX cbd615f5 p2 *0", ""),
    ("another owner", " o7,1,w", " o7,0,w"),
    ("an owner too early accepted", " o7,1,l", " o7,1,a"),
    ("an owner not told", " o7,1,w", ""),
    ("another pair's connection", "+1,S,0,0,3,0,0,1", "+1,S,0,0,3,0,0,0"),
    ("another start slot", '[0,0,3,"B"]', '[0,0,2,"B"]'),
    ("a refusal that changes something", "E0,1,3=4 3716e155", "E0,1,3!9 3716e155 s2"),
    ("another check sum", "X 7fa18e2f", "X 7fa18e30"),
    ("a connection not accepted", " c0,1", ""),
    ("a closed connection that stays accepted", " c0,0", ""),
    ("an entry of a closed connection held as declined", " o7,0,c", " o7,0,d"),
    ("a sender that was served and is not remembered", " l7,2", ""),
    ("another sender remembered", " l7,2", " l7,1"),
    ("a Look that shows another packet", "H0=A,0,1,1,1 5cef8b80", "H0=A,0,0,1,1 5cef8b80"),
    ("a Look that raises the flag", "H0=A,0,0,1,1 170969c3", "H0=A,0,0,1,1 170969c3 ^w"),
    ("a Look that accepts", "H0=A,0,0,1,1 170969c3", "H0=A,0,0,1,1 170969c3 c0,1"),
    ("a Drop that accepts the next head", " og,0,a a0,3 c0,1", " og,0,a a0,3 c1,1"),
    ("a Remaining that leaves a packet out", "N=2,2048 618acc77", "N=1,1024 618acc77"),
    ("a Remaining with other rounds", "N=2,2048 618acc77", "N=2,1024 618acc77"),
    ("a Remaining that changes something", "N=2,2048 4a9f1f42", "N=2,2048 4a9f1f42 p1"),
]

# Changes of the page's scripts and styles.
DRAWING = [
    ("tear-downs left out",
     "for (const id of state.held[number]) drawPacket",
     'for (const id of state.held[number]) if (state.packets.get(id).kind !== "T") drawPacket'),
    ("packets in another place",
     "const [x, y] = run.points[number];\n  const offset",
     "const [x, y] = run.points[(number + 3) % run.points.length];\n  const offset"),
    ("sides turned the other way",
     "const [dx, dy] = turned(edge, x, y);",
     "const [dx, dy] = turned((edge + (run.asked = (run.asked ?? 0) + 1)) % 4, x, y);"),
    ("NACKs drawn as ACKs", 'sign: "✕", onward: false', 'sign: "✓", onward: false'),
    ("packets pointing the other way",
     "kind.onward ? OUTLINES.onward : OUTLINES.back",
     "kind.onward ? OUTLINES.back : OUTLINES.onward"),
    ("picked packets not marked", '+ (picked ? " picked" : "")', ""),
    ("old packets left on the map", "entry.group.remove();", ""),
    ("accepted connections that are shared", "accepted: new Set(state.accepted)", "accepted: state.accepted"),
    ("senders last served that are shared", "last: state.last.slice()", "last: state.last"),
    ("turns always from the first in order", "const first = state.last[output] + 1;", "const first = 0;"),
    ("what is closed drawn as declined", 'sign: "−", style: "closing"', 'sign: "−", style: "teardown"'),
    ("acceptances left out", 'event.what === "ended" && event.packet.kind === "A"', "false"),
    ("closings left out", 'call.letter === "K" && !call.refusal', "false"),
    ("what is left behind drawn as accepted", 'sign: "✕", style: "leftover"', 'sign: "", style: "accepted"'),
    ("letters of another connection", 'hold.sign + (owner < 0 ? "" : letterOf(owner))', "hold.sign + letterOf(0)"),
    ("freed cells stay drawn", "if (item.look === look) return;", 'if (item.look === look || look === "") return;'),
    ("the current slot one late",
     "for (const cell of cells.bySlot[slot])",
     "for (const cell of cells.bySlot[(slot + 1) % run.plan.slots])"),
    ("a ring at the wrong entry", "free === 1 && !isBooked(state, entry)", "free === 1 && isBooked(state, entry)"),
    ("free entries counted wrong", "(free.get(row) ?? 0) + 1", "(free.get(row) ?? 0) + 2"),
    ("the round one late",
     'part("clock-round").textContent = roundAt(position)',
     'part("clock-round").textContent = roundAt(position) + 1'),
    ("another phase",
     'classList.toggle("on", phase === state.phase)',
     'classList.toggle("on", phase !== state.phase)'),
    ("jumps one call short",
     "number < position; number += 1) applyCall",
     "number < position - 1; number += 1) applyCall"),
    ("states that share their places", "held: state.held.slice(),", "held: state.held,"),
    ("states that share their packets", "[id, { ...packet }]", "[id, packet]"),
    ("credits without flags", " - state.flags[number]", ""),
    ("declines not found", 'event.before.kind === "S" && event.packet.kind === "N"', "false"),
    ("refusals left out", "when: (call) => call.refusal > 0", "when: (call) => call.refusal > 99"),
    ("a question about all that is booked", "if (owner === id && ", "if ("),
    ("names over one another", "x: wide ? x - 2 * SIZE.lane - 3 : x - SIZE.box + 2", "x: run.map.centres[0][0]"),
    ("trays over one another",
     '"out-back": { beside: [54, 40.5]', '"out-back": { beside: [54, 30.5]'),
    ("both F in one tray", "const key = [place.spot, side].join();",
     'const key = [place.spot.replace("out-back", "out"), side].join();'),
    ("the queues of a unit in one place", "side % 2 ? x : -x, side < 2 ? -y : y", "0, 0"),
    ("letters too small", ".packet text { font-size: 14px;", ".packet text { font-size: 9px;"),
]

REPORT = 'document.getElementById("selftest")?.textContent ?? "no report"'
# The pages on which a change shows, where it does not on the declined run.
BASE = {
    "a ring at the wrong entry": "t", "refusals left out": "t", "free entries counted wrong": "t",
    "a closed connection that stays accepted": "closed", "an entry of a closed connection held as declined": "closed",
    "accepted connections that are shared": "closed", "what is closed drawn as declined": "closed",
    "a Look that shows another packet": "looked", "a Look that raises the flag": "looked",
    "a Look that accepts": "looked", "a Drop that accepts the next head": "looked",
    "a Remaining that leaves a packet out": "waited", "a Remaining with other rounds": "waited",
    "a Remaining that changes something": "waited",
    "closings left out": "closed", "turns always from the first in order": "turns",
    "names over one another": "mesh", "a question about all that is booked": "mesh", "letters too small": "largest",
}


def test(browser, pages, tally):
    browser.size(1280, 800)
    for name, find, put in DATA + DRAWING:
        source = (pages / f"{BASE.get(name, 'declined')}.html").read_text(encoding="utf-8")
        changed = source.replace(find, put, 1)
        if changed == source:
            tally.check(f"mutant '{name}'", False, "could not be made")
            continue
        page = pages / "mutant.html"
        page.write_text(changed, encoding="utf-8")
        browser.open(page, "selftest")
        report = browser.run(REPORT)
        tally.check(f"mutant '{name}'", report.startswith("FAIL "), re.sub(r"\s+", " ", report)[:100])
