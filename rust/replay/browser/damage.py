"""Data that the page must refuse, each with the sentence it says."""

import re

REPORT = 'document.querySelector(".failure")?.textContent ?? ""'

CASES = [
    ("newer data", '"format":"pandabrass-run/4"', '"format":"pandabrass-run/5"',
     "The data is newer than this page: format 5, this page shows format 4."),
    ("older data", '"format":"pandabrass-run/4"', '"format":"pandabrass-run/3"',
     "The data is older than this page: format 3, this page shows format 4."),
    ("other data", '"format":"pandabrass-run/4"', '"format":"song"',
     "The data is no recorded run: its format is 'song'"),
    ("a broken block", '"note":', '"note"',
     "The data block of the page is damaged"),
    ("a part missing", '"start":', '"begin":',
     "The data block of the page has no 'start'."),
    ("a place of a later page", '["unit","Q[0] of r0', '["lane","Q[0] of r0',
     "it has a place 'lane' that this page cannot draw"),
    ("an unknown call", "\\nP0,1 ", "\\nZ0,1 ",
     "Line 16 of the recording is damaged: this page knows no call 'Z'."),
    ("an unknown token", " tk,2", " yk,2",
     "Line 9 of the recording is damaged: this page knows no token 'yk,2'."),
    ("a token cut", " tk,2", " tk",
     "Line 9 of the recording is damaged: a token has another number of fields."),
    ("a number that is none", " tk,2", " tk,two",
     "Line 9 of the recording is damaged: 'two' is not a number."),
    ("a kind that is none", "=0,A,1,1 ", "=0,B,1,1 ",
     "Line 16 of the recording is damaged: 'B' is not one of S T A N."),
    ("a packet that is none", " -2 ", " -9 ",
     "Line 67 of the recording is damaged: there is no packet 9."),
    ("a packet twice", " +1,S", " +0,S",
     "there is no packet 1"),
    ("an entry that is none", " t7,0", " tzz,0",
     "Line 36 of the recording is damaged: there is no entry 1295."),
    ("an owner that is none", " o7,1,w", " o7,9,w",
     "Line 36 of the recording is damaged: entry 7 has no readable owner."),
    ("a place that is none", " >0,1r,x", " >0,zz,x",
     "Line 4 of the recording is damaged: there is no place 1295."),
    ("an argument missing", "L1,0,0 ", "L1,0 ",
     "Line 1 of the recording is damaged: its call has another number of arguments."),
    ("a connection that is none", " c0,1", " c9,1",
     "Line 26 of the recording is damaged: there is no connection 9."),
    ("an output that is none", " l7,2", " lzz,2",
     "Line 7 of the recording is damaged: there is no output 1295."),
    ("a sender that is none", " l7,2", " l7,4",
     "Line 7 of the recording is damaged: output 7 has no sender 4."),
    ("a check sum that is none", "R b2bdb407", "R xyz",
     "Line 2 of the recording is damaged: its call or its check sum is not readable."),
    ("an empty line", "\\nX cbd615f5 p2 *0", "\\n",
     "Line 3 of the recording is damaged: its call or its check sum is not readable."),
]


def test(browser, pages, tally):
    browser.size(1280, 800)
    source = (pages / "declined.html").read_text(encoding="utf-8")
    for name, find, put, sentence in CASES:
        changed = source.replace(find, put, 1)
        tally.check(f"{name}: applied", changed != source)
        page = pages / "damaged.html"
        page.write_text(changed, encoding="utf-8")
        browser.open(page)
        report = re.sub(r"\s+", " ", browser.run(REPORT))
        tally.check(name, sentence in report, report)
    wrong_state(browser, pages, source, tally)
    later_places(browser, pages, source, tally)
    no_calls(browser, pages, source, tally)


def wrong_state(browser, pages, source, tally):
    """A state that is not the recorded one is told while the run is shown."""
    page = pages / "damaged.html"
    page.write_text(source.replace("a1,0", "a1,1", 1), encoding="utf-8")
    browser.open(page, "3")
    tally.check("a wrong state is told", "not the recorded one" in browser.run('part("strip").textContent'))


def later_places(browser, pages, source, tally):
    """Places that a later program adds at spots that this page knows are drawn by it."""
    sides = [(0, 1), (1, 0)]
    more = [f'["cross","L[{router}] of r{router}","K·{side}",1,1,{router},{side}]' for router, side in sides]
    changed = source.replace("],\n\"outputs\"", ",\n" + ",\n".join(more) + "],\n\"outputs\"", 1)
    page = pages / "damaged.html"
    page.write_text(changed, encoding="utf-8")
    browser.open(page, "selftest")
    report = browser.run('document.getElementById("selftest").textContent')
    tally.check("places of a later program", changed != source and report.startswith("PASS"), report)
    tally.equal("their trays are shared", browser.run('document.querySelectorAll("[data-tray^=cross]").length'), 5)


def no_calls(browser, pages, source, tally):
    """A run without calls is shown too."""
    page = pages / "damaged.html"
    page.write_text(re.sub('"calls":"[^"]*"', '"calls":""', source), encoding="utf-8")
    browser.open(page, "selftest")
    report = browser.run('document.getElementById("selftest").textContent')
    tally.check("a run without calls", report.startswith("PASS 0 calls"), report)
