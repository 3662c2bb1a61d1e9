#!/bin/sh
# Tests the page in a real browser: self-test, clicks and keys, damage, mutants, times, looks.
# Last line: page: N passed, M failed. Installs Chromium (Debian's package) where it is missing and may.
cd "$(dirname "$0")" || exit 2

# Says why nothing could be tested; that counts as one failure.
give_up() {
    echo "$1"
    echo "page: 0 passed, 1 failed"
    exit 1
}

command -v python3 >/dev/null || give_up "The page's tests need python3: apt-get install python3"
if ! command -v chromium >/dev/null; then
    if [ "$(id -u)" -eq 0 ] && command -v apt-get >/dev/null; then
        echo "Installing Chromium for the page's tests: apt-get install chromium"
        { apt-get update && DEBIAN_FRONTEND=noninteractive apt-get install -y --no-install-recommends \
            chromium fonts-dejavu-core fonts-liberation; } >/dev/null 2>&1
    fi
    command -v chromium >/dev/null ||
        give_up "The page's tests need Chromium. As root: apt-get update && apt-get install chromium"
fi

pages=$(mktemp -d) || exit 2
trap 'rm -rf "$pages"' EXIT
(cd ../.. && cargo run --release --quiet -p replay --example pages -- "$pages") ||
    give_up "The pages could not be made."
python3 -B tests.py "$pages" "$@"
