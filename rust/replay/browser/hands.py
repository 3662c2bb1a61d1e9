"""Clicks and keys, as a person makes them."""

POSITION = "shown.position"
NOW = 'document.getElementById("now").textContent'
STRIP = 'document.getElementById("strip").textContent'
DETAILS = 'document.getElementById("details").textContent'


def test(browser, pages, tally):
    browser.size(1280, 800)
    browser.open(pages / "declined.html")
    keys_move(browser, tally)
    lanes(browser, tally)
    decline_is_told(browser, tally)
    journey(browser, tally)
    router_and_cells(browser, tally)
    panes(browser, tally)
    views(browser, tally)
    playing(browser, tally)
    timeline(browser, tally)
    address(browser, pages, tally)
    odd_signs(browser, pages, tally)
    refusals(browser, pages, tally)
    closing(browser, pages, tally)
    turns(browser, pages, tally)
    heads(browser, pages, tally)
    queues_of_a_router(browser, pages, tally)
    looking(browser, pages, tally)
    waiting(browser, pages, tally)
    phone(browser, pages, tally)
    browser.size(1280, 800)


def press(browser, *keys):
    for key in keys:
        browser.key(key)


def keys_move(browser, tally):
    press(browser, "ArrowRight", "ArrowRight", "ArrowRight")
    tally.equal("three calls on", browser.run(POSITION), 3)
    press(browser, "ArrowLeft")
    tally.equal("a call back", browser.run(POSITION), 2)
    press(browser, "Home")
    tally.equal("to the start", browser.run(POSITION), 0)
    tally.check("the start card", "2 routers, 2 actives, 1 passive, 4 slots" in browser.run(NOW))
    press(browser, "ArrowDown")
    tally.equal("a round on", browser.run("[shown.position, shown.state.phase, roundAt(shown.position)]"), [4, 0, 1])
    press(browser, "ArrowDown", "ArrowUp")
    tally.equal("a round back", browser.run(POSITION), 4)
    press(browser, "ArrowRight", "ArrowUp")
    tally.equal("back to the start of the round", browser.run(POSITION), 4)
    press(browser, "End")
    tally.equal("to the end", browser.run("shown.position === callCount()"), True)
    press(browser, "ArrowRight")
    tally.equal("not past the end", browser.run("shown.position === callCount()"), True)
    for move, position in [("first", 0), ("on", 1), ("round-on", 4), ("back", 3), ("round-back", 0), ("last", 73)]:
        browser.click(f'[data-move="{move}"]')
        tally.equal(f"button {move}", browser.run(POSITION), position)


def lanes(browser, tally):
    press(browser, "Home")
    for key, position in [("l", 1), ("a", 26), ("l", 28), ("d", 48), ("t", 57), ("t", 67)]:
        press(browser, key)
        tally.equal(f"key {key}", browser.run(POSITION), position)
    browser.key("T", shift=True)
    tally.equal("the tear-down before", browser.run(POSITION), 57)
    press(browser, "r")
    tally.check("no refusal is said", "no further refusal" in browser.run('part("position").textContent'))
    press(browser, "Home")
    browser.click('[data-lane="decline"]')
    tally.equal("button decline", browser.run(POSITION), 48)
    counts = browser.run("LANES.map((lane) => run.lanes[lane.id].length)")
    tally.equal("calls on each lane", counts, [2, 1, 0, 1, 2, 0])


def decline_is_told(browser, tally):
    browser.run("showPosition(48)")
    text = browser.run(NOW)
    why = "The unit of r1 declines B: side 1, slot 0 is booked by A (accepted)"
    tally.check("who declines and why", why in text, text)
    tally.equal("nothing was booked or freed", browser.run('document.querySelectorAll("td.fresh").length'), 0)
    tally.check("what stays", "1 router stays booked until a tear-down has followed" in text, text)
    tally.check("left behind", "B was declined, still booked: r0 side 1 slot 3. No tear-down" in browser.run(STRIP))
    cells = '["leftover", "accepted"].map((name) => document.querySelectorAll("td." + name).length)'
    tally.equal("cells", browser.run(cells), [1, 1])
    press(browser, "t")
    tally.check("the tear-down is made", "exactly 1 router (r0)" in browser.run(NOW))
    tally.check("it is on its way", "The tear-down is on its way" in browser.run(STRIP))
    press(browser, "t")
    tally.equal("the freed entry is framed", browser.run('document.querySelector("td.fresh").dataset.entry'), "7")
    tally.check("the tear-down ends", "frees side 1, slot 3 of r0; hub was 1, it ends" in browser.run(NOW))
    tally.check("the other entry stays", "exactly that of 1 accepted connection" in browser.run(STRIP))
    browser.run("showPosition(39)")
    tally.check("a packet waits for a free slot", "Side 1 of r0 sends nobody: slot 3 is booked" in browser.run(NOW))
    tally.equal("a bar across the side", browser.run('document.querySelectorAll(".bar.on").length'), 1)


def journey(browser, tally):
    browser.run("showPosition(48)")
    browser.click(".packet")
    text = browser.run(DETAILS)
    told = all(words in text for words in ["Journey of this packet", "declined", "Q[0] of r1's unit"])
    tally.check("a packet's journey", told, text)
    step = 'document.querySelector("#details tr.current td:nth-child(2)").textContent'
    tally.equal("the current step", browser.run(step), "✕ declined")
    tally.check("its wires", browser.run('document.querySelectorAll(".on-journey").length') >= 4)
    browser.click("#details tr.go")
    tally.equal("a step of the journey", browser.run(POSITION), 28)
    browser.click("[data-journey]")
    tally.check("its tear-down", "a tear-down, made for its NACK" in browser.run(DETAILS))
    browser.click("[data-journey]")
    tally.check("back to the NACK", "see its tear-down" in browser.run(DETAILS))
    press(browser, "Escape")
    tally.equal("let go", browser.run("[shown.packet, shown.router]"), [None, None])


def router_and_cells(browser, tally):
    browser.run("showPosition(48)")
    browser.click('[data-router="1"] .router-name')
    text = browser.run(DETAILS)
    tally.check("a router's queues", "credit" in text and "U[0]" in text and "handled" in text, text)
    tally.equal("the router is marked", browser.run('document.querySelector(".router.chosen").dataset.router'), "1")
    browser.click("td.accepted")
    tally.check("the owner of a cell", "force → drive, start slot 0" in browser.run(DETAILS))
    browser.click("td.leftover")
    tally.check("the owner of what was left", "camera → drive, start slot 3" in browser.run(DETAILS))
    rows = '[...document.querySelectorAll("#blocks tr")].filter((row) => row.offsetHeight > 0).length'
    before = browser.run(rows)
    browser.click("#all-sides")
    after = browser.run(rows)
    tally.equal("rows with and without sides that no walk leaves by", [before, after], [4, 7])
    browser.click("#all-sides")
    browser.run("document.activeElement.blur()")
    press(browser, "Escape")


def panes(browser, tally):
    press(browser, "End")
    browser.click('[data-pane="connections"]')
    text = browser.run('document.getElementById("connections").textContent')
    tally.check("connections", "force → drive0accepted" in text and "camera → drive3declined, all free" in text, text)
    browser.click("[data-connection]")
    tally.check("a connection's packet", "force → drive" in browser.run(DETAILS))
    browser.click('[data-pane="calls"]')
    tally.equal("the current row", browser.run('document.querySelector(".row.current").dataset.call'), "72")
    browser.run("showPosition(20)")
    tally.equal("the list follows", browser.run('document.querySelector(".row.current").dataset.call'), "19")
    browser.run('part("calls").scrollTop = 40 * 24')
    tally.check("scrolled by hand", browser.until('document.querySelector(\'.row[data-call="42"]\') !== null'))
    browser.run("showPosition(20)")
    browser.click('.row[data-call="24"]')
    tally.equal("a row of the list", browser.run(POSITION), 25)


def views(browser, tally):
    shown = 'getComputedStyle(part("map")).display + " " + getComputedStyle(part("tables")).display'
    for key, wanted in [("1", "block none"), ("3", "none block"), ("2", "block block")]:
        press(browser, key)
        tally.equal(f"view {key}", browser.run(shown), wanted)
    theme = "document.documentElement.dataset.theme"
    first = browser.run(theme)
    press(browser, "g")
    second = browser.run(theme)
    browser.click("#theme")
    tally.check("light and dark", {first, second} == {"light", "dark"} and browser.run(theme) == first)
    width = 'part("drawing").getBoundingClientRect().width'
    fit = browser.run(width)
    browser.click('[data-zoom="in"]')
    larger = browser.run(width)
    press(browser, "0")
    tally.check("larger and fit", larger > fit * 1.2 and abs(browser.run(width) - fit) < 1)
    press(browser, "?")
    told = 'part("dialog").open && part("dialog").textContent.includes("predict first")'
    tally.check("keys and signs", browser.run(told))
    browser.click("#close")
    tally.check("closed again", browser.run('!part("dialog").open'))


def playing(browser, tally):
    press(browser, "Home")
    browser.run('part("speed").value = "40"')
    press(browser, " ")
    tally.check("play", browser.until("shown.position >= 3"))
    tally.equal("the button of play", browser.run('part("play").textContent'), "Pause")
    browser.click("#play")
    at = browser.run(POSITION)
    browser.run("new Promise((done) => setTimeout(done, 300))")
    tally.equal("pause", browser.run(POSITION), at)


def timeline(browser, tally):
    box = 'part("timeline").getBoundingClientRect()'
    x, y, width = (browser.run(f"{box}.{name}") for name in ["x", "y", "width"])
    browser.click_at(x + 92 + (width - 92) / 2, y + 30)
    tally.check("a click on the timeline", abs(browser.run(POSITION) - 36) <= 1, browser.run(POSITION))


def address(browser, pages, tally):
    browser.open(pages / "declined.html", "48&theme=dark&view=table")
    found = "[shown.position, document.documentElement.dataset.theme, document.body.dataset.view]"
    tally.equal("the address", browser.run(found), [48, "dark", "table"])
    press(browser, "ArrowRight")
    tally.check("the address follows", browser.until('location.hash === "#49"'))


def odd_signs(browser, pages, tally):
    browser.open(pages / "star.html")
    title = 'Four routers in a "star" <b>&amp;</b></script>'
    found = browser.run('[part("title").textContent, document.title]')
    tally.equal("a title with odd signs", found, [title, title + " – Pandabrass"])


def refusals(browser, pages, tally):
    browser.open(pages / "t.html")
    press(browser, "r")
    text = browser.run(NOW)
    tally.check("a refusal", browser.run(POSITION) == 2 and "refused 11: camera's allowance is spent" in text, text)
    tally.check("a refusal alters no byte", "a refusal alters no byte" in text)
    press(browser, "a")
    tally.check("accepted", "is accepted" in browser.run(NOW))
    tally.equal("in round 7", browser.run("run.calls[shown.position - 1].round"), 7)
    press(browser, "d")
    tally.check("why the last free entry is not booked", "last free entry of side 1, which is kept" in browser.run(NOW))
    tally.check("the last free entry is kept", "last free entry kept" in browser.run(STRIP))
    press(browser, "End")
    tally.check("a booked entry", "booked, came in by side 0" in browser.run("callLine(run.calls[45])"))
    tally.check("a free entry", "free" in browser.run(NOW))


def closing(browser, pages, tally):
    browser.open(pages / "closed.html")
    press(browser, "r")
    text = browser.run(NOW)
    tally.check("closed too early", "refused 16: camera → drive from slot 3 is not accepted" in text, text)
    press(browser, "c")
    tally.equal("key c", browser.run(POSITION), 44)
    text = browser.run(NOW)
    told = "camera closes the connection with tear-down A: slot 3, hub 2. It will free exactly 2 routers (r0, r1)"
    tally.check("a close", told in text, text)
    strip = browser.run(STRIP)
    tally.check("closed, still booked", "A is closed, booked until its tear-down has passed" in strip, strip)
    tally.check("it is not accepted", "1 packet under way, 0 accepted" in strip, strip)
    tally.equal("its cells", browser.run('document.querySelectorAll("td.closing").length'), 2)
    pane = 'document.getElementById("connections").textContent'
    browser.click('[data-pane="connections"]')
    tally.check("the connection is closed", "closed, being torn down" in browser.run(pane), browser.run(pane))
    browser.click("td.closing")
    tally.check("its tear-down", "made to close the connection of its ACK" in browser.run(DETAILS))
    browser.click("[data-journey]")
    tally.check("its ACK", "see its tear-down" in browser.run(DETAILS))
    press(browser, "l", "ArrowLeft")
    tally.check("all free", "exactly that of 0 accepted connections" in browser.run(STRIP), browser.run(STRIP))
    browser.click('[data-pane="connections"]')
    tally.check("closed and free", "closed, all free" in browser.run(pane), browser.run(pane))
    press(browser, "End")
    tally.check("opened again", "exactly that of 1 accepted connection" in browser.run(STRIP), browser.run(STRIP))


def turns(browser, pages, tally):
    """The unit's NACK and two ACKs wait for one side; who goes, who went last, and who is next."""
    browser.open(pages / "turns.html", "37")
    text = browser.run(NOW)
    told = "At r0.0 it is the turn of ✕E: K[3,0] of r0 went last. Waiting: ✓C ✓D"
    tally.check("whose turn it is", told in text, text)
    browser.click('[data-router="0"] .router-name')
    row = 'document.querySelector(\'#details [data-output="0"]\').textContent.replace(/\\s+/g, " ").trim()'
    tally.equal("the turns before", browser.run(row), "r0.0K[3,0]✕E answer F[0] ✓C K[2,0] ✓D K[3,0]")
    press(browser, "ArrowRight")
    tally.equal("the turns after", browser.run(row), "r0.0answer F[0]✓C K[2,0] ✓D K[3,0]")
    press(browser, "ArrowRight", "ArrowRight", "ArrowRight")
    tally.equal("a second NACK waits for its turn", browser.run(row), "r0.0K[2,0]✓D K[3,0] ✕F answer F[0]")
    press(browser, "Escape")


def heads(browser, pages, tally):
    """Two heads of one unit ask for the same entry in one Execute: side 0 has it, side 1 is told by whom."""
    browser.open(pages / "heads.html", "29")
    text = browser.run(NOW)
    tally.check("side 0 books", "The unit of r0 books side 3, slot 1 for C: hub 1" in text, text)
    told = "The unit of r0 declines E: side 3, slot 1 is booked by C (under way)"
    tally.check("side 1 finds it booked", told in text, text)
    told = "At the way from r0's unit it is the turn of ✕E: Q[0] of r0's unit went last. Waiting: +C"
    tally.check("one of them is sent", told in text, text)


def queues_of_a_router(browser, pages, tally):
    """A router with four joined sides: for each side U, Q at the unit, both F, and K; where it is not joined, none."""
    browser.open(pages / "crossing.html", "275")
    trays = """((router) => ["in", "unit", "out", "out-back", "cross"].map((spot) =>
        document.querySelectorAll(`[data-router="${router}"] [data-tray^="${spot},"]`).length))"""
    tally.equal("four sides", browser.run(trays + "(0)"), [4, 4, 4, 4, 4])
    tally.equal("three sides", browser.run(trays + "(1)"), [3, 3, 3, 3, 3])
    labels = """[...document.querySelectorAll('[data-router="0"] .tray-label')]
        .map((one) => one.textContent).sort().join(" ")"""
    tally.equal("their labels", browser.run(labels),
                "F0+ F0✕ F1+ F1✕ F2+ F2✕ F3+ F3✕ K·0 K·1 K·2 K·3 Q0 Q1 Q2 Q3 U0 U1 U2 U3")
    text = browser.run(NOW)
    told = ["✕X joins answer F[1] of arm1", "−A joins Q[0] of arm1's unit", "+AB joins set-up F[3] of box1"]
    tally.check("which F and which Q", all(words in text for words in told), text)
    browser.click('[data-router="1"] .router-name')
    row = 'document.querySelector(\'#details [data-output="10"]\').textContent.replace(/\\s+/g, " ").trim()'
    tally.equal("the way from a unit has turns", browser.run(row), "the way from arm1's unitQ[1]−A Q[0]")
    press(browser, "Escape")


def looking(browser, pages, tally):
    """Two ACKs wait: looked at, nothing changes; dropped, the first is accepted and the second is seen."""
    browser.open(pages / "looked.html", "39")
    text = browser.run(NOW)
    told = "✓A is the head of left's in-queue. The connection is accepted when it is dropped. A Look changes nothing."
    tally.check("a Look in READ", "ACK, slot 1, hub 1" in text and told in text, text)
    tally.check("looked at, not accepted", "0 accepted" in browser.run(STRIP), browser.run(STRIP))
    press(browser, "a")
    tally.equal("key a goes to the Drop", browser.run(POSITION), 45)
    text = browser.run(NOW)
    tally.check("a Drop", "Drop left" in text and "is accepted. Allowance back to 3." in text, text)
    tally.check("dropped and accepted", "1 accepted" in browser.run(STRIP), browser.run(STRIP))
    press(browser, "ArrowRight")
    tally.check("the next head", "✓B is the head of left's in-queue" in browser.run(NOW), browser.run(NOW))
    press(browser, "ArrowRight")
    text = browser.run(NOW)
    tally.check("one Drop a round", "refused 14: left has taken one in this round, its flag is up" in text, text)
    row = 'document.querySelector(\'[data-call="44"] span:last-child\').textContent'
    tally.equal("the Drop in the list", browser.run(row), "Drop left: A is accepted")


def waiting(browser, pages, tally):
    """Before a wash: what is under way in each phase, one more while a tear-down is made, and nothing at the end."""
    browser.open(pages / "waited.html", "18")
    text = browser.run(NOW)
    supposed = "in every WRITE each passive replies and each active drops that can, the network is empty after at most"
    tally.check("Remaining in READ", "2 packets under way: wait at most 2048 rounds" in text and supposed in text, text)
    for position, told in [(44, "1 packet under way: wait at most 1024 rounds"), (48, "2 packets under way"),
                           (69, "nothing under way"), (69, "Every queue and wire is empty.")]:
        browser.run(f"showPosition({position})")
        tally.check(f"Remaining after {position} calls", told in browser.run(NOW), browser.run(NOW))
    browser.run("showPosition(18)")
    row = 'document.querySelector(\'[data-call="17"] span:last-child\').textContent'
    tally.equal("Remaining in the list", browser.run(row), "Remaining: 2 packets under way: wait at most 2048 rounds")


def phone(browser, pages, tally):
    browser.size(390, 844, True)
    browser.open(pages / "declined.html", "48")
    for tab, visible in [("table", "tables"), ("calls", "now"), ("map", "map")]:
        browser.click(f'#tabs [data-tab="{tab}"]')
        tally.check(f"tab {tab}", browser.run(f'part("{visible}").getBoundingClientRect().height') > 40)
    heights = browser.run('[...document.querySelectorAll("#controls button")].map((one) => one.offsetHeight)')
    tally.check("buttons for fingers", all(height == 0 or height >= 44 for height in heights), heights)
    tally.check("nothing is wider than the page", browser.run("document.documentElement.scrollWidth <= 390"))
