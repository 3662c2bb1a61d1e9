#!/usr/bin/env python3
"""Gives the crates of an older commit the names that show their layers: folders, crates.txt, paths of definitions and
proofs, and paths in code, so that it can be laid beside today's. What it gives is what the commit that renamed them (the
third line of docs/PORT.md) has, but for comments, the order of imports and line breaks.

usage: tools/rename_crates.py TOP
"""

import os
import re
import sys

NAMES = dict(line.split() for line in """\
acts bytes_steps
arrivals load_arrivals
choices check_choices
circles load_rings
closing call_close
counting call_remaining
drain theory_drain
drained claims_drain
dropping call_drop
executing phase_execute
feeding plan_queues
forms check_idle
frames check_frames
inspect check_state
interfaces plan_interfaces
journeys plan_journeys
launching call_launch
layout bytes_layout
lengths load_lengths
lines check_queues
links graph_links
looking call_look
machine rules
moves next_queue
onward graph_next
paths plan_walks
peel graph_ring
picking phase_pick
places check_places
reach graph_reach
reading phase_read
replying call_reply
routes plan_routes
rows bytes_rows
sides check_table
spread graph_flow
starting call_start
states check_rule
ties check_connections
trails graph_met
turns check_last_senders
units phase_unit
visits call_common
wires check_wires
wiring plan_facts
writing phase_write
""".split("\n") if line)


def turned(path, text):
    some = "|".join(sorted(NAMES, key=len, reverse=True))
    if path.endswith("crates.txt"):
        return "\n".join(re.sub(rf"\b({some})\b", lambda m: NAMES[m[1]], l) if ":" in l and not l.startswith("#") else l
                         for l in text.split("\n"))
    text = re.sub(rf"Rattle·({some})\b(?!-)", lambda m: "Rattle·" + NAMES[m[1]], text)
    if path.endswith((".rt", ".edit")):
        text = re.sub(rf"(?<![\w.:])({some})::", lambda m: NAMES[m[1]] + "::", text)
    return text


def main(top):
    for folder, dirs, files in os.walk(os.path.join(top, "crates")):
        dirs[:] = [d for d in dirs if d != "out"]
        for name in files:
            path = os.path.join(folder, name)
            if name.endswith((".rt", ".antt", ".edit")):
                with open(path, encoding="utf-8") as f:
                    old = f.read()
                with open(path, "w", encoding="utf-8") as f:
                    f.write(turned(path, old))
    path = os.path.join(top, "crates.txt")
    with open(path, encoding="utf-8") as f:
        old = f.read()
    with open(path, "w", encoding="utf-8") as f:
        f.write(turned(path, old))
    for old, new in NAMES.items():
        if os.path.isdir(os.path.join(top, "crates", old)):
            os.rename(os.path.join(top, "crates", old), os.path.join(top, "crates", new + ".new"))
    for new in NAMES.values():
        if os.path.isdir(os.path.join(top, "crates", new + ".new")):
            os.rename(os.path.join(top, "crates", new + ".new"), os.path.join(top, "crates", new))


if __name__ == "__main__":
    main(sys.argv[1])
