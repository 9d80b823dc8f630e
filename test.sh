#!/usr/bin/env bash
# All tests. Every crate is proved, each must-fail edit is refused, and what the programs print is compared
# with what they should (rt ci). Then, over the proved engine: the report's refusals, the example in C, the
# Rust wrapper, policies as text, and random books against a second implementation. The last line is
# 'N passed, 0 failed'.
set -euo pipefail
cd "$(dirname "$0")"
. ./kit.sh
needs rt cc cargo
same_kit
log=$(mktemp)
folder=$(mktemp -d)
trap 'rm -rf "$log" "$folder"' EXIT

# same NAME FILE FILE: the two files hold the same bytes.
same() {
    cmp "$2" "$3" || { echo "FAILED: $1"; exit 1; }
    echo "passed: $1"
}

# report TEXT NAME: policyreport prints the text on small.book in the folder, if there is one.
report() {
    (cd "$folder" && "$report") > "$folder/said"
    echo "$1" > "$folder/wanted"
    same "report, $2" "$folder/wanted" "$folder/said"
}

# An edit that cannot be applied or read shows nothing, and rt ci passes it.
rt ci | tee "$log"
grep -q '^rt: ok' "$log" || { echo "FAILED: rt ci has no line 'rt: ok'"; exit 1; }
if grep -qE '^rt: ok.*, [1-9][0-9]* bad' "$log"; then
    echo "FAILED: bad must-fail edits"
    exit 1
fi

# what rt ci built
report=$PWD/crates/policyreport/out/policyreport
report "refused 1 block 0" "no file"
: > "$folder/small.book"
report "refused 1 block 0" "an empty file"
head -c 18944 /dev/zero > "$folder/small.book"
report "refused 1 block 0" "37 blocks"

(cd crates/capi && rt lib) > "$folder/lib" || { cat "$folder/lib"; exit 1; }
cc -std=c99 -Wall -Wextra -Werror -Iinclude include/example.c crates/capi/out/libcapi.a -o "$folder/example"
"$folder/example" crates/policyreport/data/small.book > "$folder/said"
same "the example in C" include/example.out "$folder/said"

export CARGO_TARGET_DIR=$PWD/target/cargo
cargo test --offline --release --manifest-path rust/Cargo.toml --workspace
cargo run --offline --release --quiet --manifest-path rust/Cargo.toml -p against -- --seed 1 --cases 50000

tail -n 1 "$log"
