"""The page's own test on twelve runs, on a wide and on a narrow page, and on random plans."""

RUNS = ["t", "declined", "closed", "turns", "heads", "looked", "waited", "arm", "crossing", "mesh", "star", "largest"]
SIZES = {"wide": (1280, 800, False), "phone": (390, 844, True)}
REPORT = 'document.getElementById("selftest")?.textContent ?? "no report"'


def test(browser, pages, tally):
    for size, numbers in SIZES.items():
        browser.size(*numbers)
        for name in RUNS:
            browser.open(pages / f"{name}.html", "selftest")
            report = browser.run(REPORT)
            tally.check(f"self-test of {name}, {size}", report.startswith("PASS "), report)
            asked = [url for url in browser.requests() if not url.startswith("file:")]
            tally.equal(f"{name} needs nothing beside it", asked, [])
    browser.size(1280, 800)
    for page in sorted(pages.glob("random-*.html")):
        browser.open(page, "selftest")
        report = browser.run(REPORT)
        tally.check(f"self-test of {page.stem}", report.startswith("PASS "), report)
