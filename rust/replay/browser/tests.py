"""All tests of the page in the browser. Argument: the folder with the pages; then, if given, names of parts."""

import pathlib
import sys
import time

import damage
import hands
import looks
import mutants
import predict
import selftests
import times
from chromium import Chromium, PageError
from tally import Tally

PARTS = {
    "selftests": selftests.test, "hands": hands.test, "predict": predict.test, "damage": damage.test,
    "looks": looks.test, "times": times.test, "mutants": mutants.test,
}


def main():
    pages = pathlib.Path(sys.argv[1]).resolve()
    names = sys.argv[2:] or PARTS
    tally, browser = Tally(), Chromium()
    for name in names:
        began, before = time.monotonic(), tally.passed
        try:
            PARTS[name](browser, pages, tally)
        except PageError as error:
            tally.check(name, False, f"stopped: {error}")
        print(f"page, {name}: {tally.passed - before} passed, {time.monotonic() - began:.1f} s")
    browser.close()
    print(f"page: {tally.passed} passed, {tally.failed} failed")
    return 1 if tally.failed or not tally.passed else 0


sys.exit(main())
