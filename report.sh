#!/usr/bin/env bash
# Proves, builds and runs the report. Without an argument it reports on the small shop.
#   ./report.sh [BOOK]
# While it proves: one line a crate, with its seconds; all the rest is in target/log/report.
# Exit status: 1 where something is not proved, 2 where the book or a tool is missing or a second argument is given.
set -euo pipefail
root=$(cd "$(dirname "$0")" && pwd)
[ $# -le 1 ] || { echo "found $# arguments; expected report.sh [BOOK]" >&2; exit 2; }
given=${1:-$root/crates/policyreport/data/small.book}
book=$(realpath -m -- "$given")
if [ -d "$book" ]; then
    echo "$given: found a folder; expected a book" >&2
    exit 2
elif [ ! -r "$book" ]; then
    echo "$given: there is no such file, or it can't be read" >&2
    exit 2
fi

cd "$root"
. ./kit.sh
needs rt
same_kit
folder=$(mktemp -d)
ticking=
trap '[ -z "$ticking" ] || kill "$ticking"; rm -r "$folder"' EXIT

# On a terminal, the seconds so far, in one place.
tick() {
    local seconds=0
    while sleep 1; do
        seconds=$((seconds + 1))
        printf '\r%s s \r' "$seconds" >&2
    done
}

# proves CRATE COMMAND: rt's command proves and builds the crate.
proves() {
    local begun=$SECONDS
    if ! (cd "crates/$1" && rt "$2") >> target/log/report 2>&1; then
        echo "not proved: target/log/report says why" >&2
        exit 1
    fi
    echo "rt: $1 proved ($((SECONDS - begun)) s)" >&2
}

mkdir -p target/log
: > target/log/report
echo "proving and building the report: some minutes the first time" >&2
if [ -t 2 ]; then tick & ticking=$!; fi
# the libraries that it stands on, in the order of crates.txt; run also starts the program, where no book is
for crate in book lineage verdicts search; do proves "$crate" lib; done
proves policyreport run
[ -z "$ticking" ] || kill "$ticking"
ticking=

# the program reads small.book in its folder
cp -- "$book" "$folder/small.book"
cd "$folder" && "$root/crates/policyreport/out/policyreport"
