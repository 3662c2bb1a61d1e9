"""How the page looks: contrast of texts, sizes, nothing cut, readable without colours."""

CONTRAST = """(() => {
    const parse = (text) => (text.match(/[\\d.]+/g) ?? []).map(Number);
    const light = ([r, g, b]) => [r, g, b].map((value) => value / 255)
        .map((value) => (value <= 0.03928 ? value / 12.92 : ((value + 0.055) / 1.055) ** 2.4))
        .reduce((sum, value, at) => sum + value * [0.2126, 0.7152, 0.0722][at], 0);
    const ground = (element) => {
        for (let at = element; at; at = at.parentElement) {
            const colour = parse(getComputedStyle(at).backgroundColor);
            if (colour.length === 3 || colour[3] === 1) return colour;
        }
        return [255, 255, 255];
    };
    const low = [];
    for (const element of document.querySelectorAll("button, td, th, p, li, span, b, i, label, h1, h2, h3")) {
        const own = [...element.childNodes].some((node) => node.nodeType === 3 && node.textContent.trim());
        if (!own || element.getClientRects().length === 0) continue;
        const [one, other] = [light(parse(getComputedStyle(element).color)), light(ground(element))];
        const ratio = (Math.max(one, other) + 0.05) / (Math.min(one, other) + 0.05);
        if (ratio < 4.5) low.push(element.textContent.slice(0, 20) + " " + ratio.toFixed(2));
    }
    return [...new Set(low)].slice(0, 8);
})()"""

COLOURS = """COLOURS.map(([colour, ink]) => {
    const hex = (text) => (text.length === 4 ? [1, 2, 3].map((at) => parseInt(text[at] + text[at], 16))
        : [1, 3, 5].map((at) => parseInt(text.slice(at, at + 2), 16)));
    const light = (rgb) => rgb.map((value) => value / 255)
        .map((value) => (value <= 0.03928 ? value / 12.92 : ((value + 0.055) / 1.055) ** 2.4))
        .reduce((sum, value, at) => sum + value * [0.2126, 0.7152, 0.0722][at], 0);
    const [one, other] = [light(hex(colour)), light(hex(ink))];
    return (Math.max(one, other) + 0.05) / (Math.min(one, other) + 0.05);
})"""

CUT = """[...document.querySelectorAll("#clock, #controls, #views, #panes")]
    .filter((element) => element.offsetHeight > 0 && element.scrollWidth > element.clientWidth + 1)
    .map((element) => element.id)"""

WITHOUT_COLOURS = """(() => {
    const look = (cell) => {
        const style = getComputedStyle(cell);
        const sign = cell.textContent.replace(/[A-Z]/g, "");
        return [sign, style.outlineStyle, style.backgroundImage.split("(")[0], style.backgroundSize].join(" ");
    };
    return [...document.querySelectorAll("#legend i.booked")].map(look);
})()"""


def test(browser, pages, tally):
    for theme in ["light", "dark"]:
        for name, at in [("declined", 48), ("declined", 57), ("closed", 46), ("t", 2), ("largest", 400), ("arm", 200)]:
            for pane in ["calls", "connections"]:
                browser.size(1280, 800)
                browser.open(pages / f"{name}.html", f"{at}&theme={theme}&pane={pane}&view=both")
                tally.equal(f"contrast, {name}, {theme}, {pane}", browser.run(CONTRAST), [])
        browser.open(pages / "declined.html", f"48&theme={theme}&predict=1")
        tally.equal(f"contrast of the question, {theme}", browser.run(CONTRAST), [])
    tally.check("letters on their colours", min(browser.run(COLOURS)) >= 4.5, browser.run(COLOURS))
    looks = browser.run(WITHOUT_COLOURS)
    tally.check("cells differ without colours", len(set(looks)) == 5, looks)
    for width, height in [(1280, 800), (1600, 900), (1024, 700), (390, 844), (360, 640)]:
        browser.size(width, height, width < 820)
        browser.open(pages / "arm.html", "200")
        tally.equal(f"nothing is cut at {width}", browser.run(CUT), [])
        tally.check(f"nothing is wider than {width}", browser.run(f"document.documentElement.scrollWidth <= {width}"))
    browser.size(1280, 800)
    browser.open(pages / "largest.html", "400")
    tally.check("the largest plan fits the map at 1280 by 800", not browser.run("shown.overflows"))
