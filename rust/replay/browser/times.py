"""Times of a long run: 5,000 calls on the largest plan.

Each is the middle of many steps. Other programs on the machine can only make it longer, so one that is above
its limit is measured again, at most three times, and the shortest counts.
"""

import os

LARGEST = 2_000_000  # bytes
SHOWN = 2000  # milliseconds
STEP = 50  # milliseconds


def test(browser, pages, tally):
    page = pages / "long.html"
    size = os.path.getsize(page)
    tally.check("the page is under 2 MB", size < LARGEST, size)
    browser.size(1280, 800)
    shown = shortest(lambda: (load(browser, page), 0), SHOWN)[0]
    tally.check("it is shown within two seconds", shown < SHOWN, shown)
    tally.check("it has 5,000 calls", browser.run("callCount()") >= 5000)
    browser.run("showPosition(4000)")
    figures = []
    for view in ["map", "both", "table"]:
        script = timed(f'showView("{view}")', "moveBy(1)", 40)
        step, worst = shortest(lambda: browser.run(script), STEP)
        tally.check(f"a step within 50 ms, {view}", step < STEP, step)
        figures.append(f"{view} {step:.0f} ms (slowest {worst:.0f})")
    script = timed("", "showPosition((shown.position * 7919 + 13) % callCount())", 20)
    jump, worst = shortest(lambda: browser.run(script), 2 * STEP)
    tally.check("a jump within 100 ms", jump < 2 * STEP, jump)
    print(f"page, 5,000 calls on the largest plan: {size} bytes, shown after {shown} ms;",
          f"a step: {', '.join(figures)}; a jump {jump:.0f} ms")


def shortest(measure, limit):
    """The shortest of at most three measurements; one below the limit is enough."""
    found = measure()
    for _ in range(2):
        if found[0] < limit:
            break
        found = min(found, measure())
    return found


def load(browser, page):
    """Milliseconds from opening the page until it is drawn."""
    browser.open(page, "2500")
    return browser.run("Number(document.body.dataset.ready)")


def timed(first, action, times):
    """A script that gives the middle and the longest time of an action, drawing included."""
    return f"""(() => {{
        {first};
        const spent = [];
        for (let at = 0; at < {times}; at += 1) {{
            const began = performance.now();
            {action};
            document.body.getBoundingClientRect();
            part("blocks").getBoundingClientRect();
            spent.push(performance.now() - began);
        }}
        spent.sort((one, other) => one - other);
        return [spent[Math.floor(spent.length / 2)], spent[spent.length - 1]];
    }})()"""
