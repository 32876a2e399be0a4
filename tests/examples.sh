#!/bin/sh
# Runs every example and every test vector through the bench program and compares the listing with
# the one kept beside it, byte by byte; every example through ./prs list too.
#
#     tests/examples.sh [PROGRAM]      the program is crates/prs/out/prs without an argument
#
# The last line is 'N passed, M failed'; the exit status is 1 on any failure.
set -u
cd "$(dirname "$0")/.." || exit 1
program=${1:-crates/prs/out/prs}
made=$(mktemp -d) || exit 1
trap 'rm -rf "$made"' EXIT
passed=0
failed=0

# compare NAME INPUT LISTING COMMAND..
compare() {
    name=$1 input=$2 want=$3
    shift 3
    "$@" <"$input" >"$made/listing"
    status=$?
    if [ "$status" -eq 0 ] && cmp -s "$want" "$made/listing"; then
        passed=$((passed + 1))
        return
    fi
    failed=$((failed + 1))
    echo "FAILED $name (exit status $status); expected on the left, got on the right:"
    diff "$want" "$made/listing" | head -4
}

for text in examples/*.txt; do
    tests/words.py "$text" >"$made/input"
    compare "$text" "$made/input" "${text%.txt}.out" "$program"
    [ $# -gt 0 ] || compare "./prs list $text" /dev/null "${text%.txt}.out" ./prs list "$text"
done
for input in tests/vectors/*.in; do
    compare "$input" "$input" "${input%.in}.out" "$program"
done

echo "$passed passed, $failed failed"
[ "$failed" -eq 0 ]
