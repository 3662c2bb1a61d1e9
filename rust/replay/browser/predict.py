"""Predict first: the question after a decline, the click, the comparison."""

STRIP = 'document.getElementById("strip").textContent'
QUESTION = 'part("question").hidden ? "" : part("question").textContent'


def test(browser, pages, tally):
    browser.size(1280, 800)
    browser.open(pages / "declined.html")
    asked_on_the_way(browser, tally)
    right(browser, tally)
    wrong(browser, pages, tally)
    skipped(browser, pages, tally)
    many(browser, pages, tally)
    on_a_phone(browser, pages, tally)


def asked_on_the_way(browser, tally):
    browser.key("p")
    found = browser.run('[predictions.on, part("predict").getAttribute("aria-pressed")]')
    tally.equal("predicting is on", found, [True, "true"])
    browser.run("showPosition(46)")
    browser.key("ArrowDown")
    tally.equal("a round on stops at the decline", browser.run("shown.position"), 48)
    text = browser.run(QUESTION)
    tally.check("the question", "B was declined. Which entries stay booked for it?" in text, text)
    tally.check("what is known", "slot 0, hub 1" in text, text)
    tally.equal("every cell is hidden", browser.run('document.querySelectorAll("td.booked").length'), 0)
    tally.check("the strip does not tell", "still booked" not in browser.run(STRIP))
    tally.check("the card does not tell", "stays booked" not in browser.run('part("now").textContent'))
    tally.equal("the map does not tell", browser.run('document.querySelectorAll(".bar.on").length'), 0)


def right(browser, tally):
    entry = browser.run("entryNumber(0, 1, 3)")
    browser.click(f'td[data-entry="{entry}"]')
    tally.equal("a click marks", browser.run('document.querySelectorAll("td.guess").length'), 1)
    browser.click(f'td[data-entry="{entry}"]')
    tally.equal("a second click takes the mark off", browser.run('document.querySelectorAll("td.guess").length'), 0)
    browser.click(f'td[data-entry="{entry}"]')
    browser.key("Enter")
    text = browser.run(QUESTION)
    rule = "Right. Hub 1: the first 1 router of its walk stays booked, from slot 3 on."
    tally.check("right", text.startswith(rule), text)
    tally.check("the score", "1 of 1 right" in text, text)
    cells = '["booked", "right"].map((name) => document.querySelectorAll("td." + name).length)'
    tally.equal("shown and compared", browser.run(cells), [2, 1])
    browser.click("#go-on")
    tally.equal("on", browser.run('[shown.position, part("question").hidden]'), [49, True])
    tally.equal("the marks are gone", browser.run('document.querySelectorAll("td.right").length'), 0)
    browser.run("showPosition(48)")
    tally.equal("not asked twice", browser.run(QUESTION), "")


def wrong(browser, pages, tally):
    browser.open(pages / "declined.html", "0&predict=1")
    browser.key("d")
    browser.click(f'td[data-entry="{browser.run("entryNumber(1, 1, 0)")}"]')
    browser.click(f'td[data-entry="{browser.run("entryNumber(1, 1, 2)")}"]')
    browser.click("#answer")
    text = browser.run(QUESTION)
    tally.check("not quite", text.startswith("Not quite."), text)
    tally.check("missed", "missed: r0 side 1 slot 3" in text, text)
    tally.check("whose it is", "r1 side 1 slot 0 is A's" in text and "r1 side 1 slot 2 is free" in text, text)
    marks = browser.run('["right", "missed", "wrong"].map((mark) => document.querySelectorAll("td." + mark).length)')
    tally.equal("marked cells", marks, [0, 1, 2])


def skipped(browser, pages, tally):
    browser.open(pages / "declined.html", "0&predict=1")
    browser.key("d")
    browser.key("Escape")
    tally.equal("skipped", browser.run('[shown.question, document.querySelectorAll("td.booked").length]'), [None, 2])
    browser.key("p")
    tally.equal("off", browser.run("predictions.on"), False)


def many(browser, pages, tally):
    """Every decline of a long run: clicking what the data tells is right each time."""
    browser.open(pages / "mesh.html", "0&predict=1")
    result = browser.run("""(() => {
        let asked = 0;
        for (let moves = 0; moves < 200; moves += 1) {
            moveToLane("decline", 1);
            if (!shown.question && !openDecline(shown.position - 1)) break;
            while (shown.question) {
                for (const entry of heldEntries(shown.question.packet.id)) clickEntry(entry);
                answerQuestion();
                asked += 1;
                if (openDecline(shown.position - 1)) showPosition(shown.position);
            }
        }
        const wanted = [...run.declines.values()].reduce((sum, packets) => sum + packets.length, 0);
        return [asked === wanted, wanted > 5, [...predictions.answers.values()].every(Boolean)];
    })()""")
    tally.equal("every decline is asked once", result, [True, True, True])


def on_a_phone(browser, pages, tally):
    browser.size(390, 844, True)
    browser.open(pages / "declined.html", "46&predict=1")
    browser.click('[data-lane="decline"]')
    tally.equal("the tables come to the front", browser.run("document.body.dataset.tab"), "table")
    browser.click(f'td[data-entry="{browser.run("entryNumber(0, 1, 3)")}"]')
    browser.click("#answer")
    tally.check("right on a phone", browser.run(QUESTION).startswith("Right."))
    browser.size(1280, 800)
