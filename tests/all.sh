#!/bin/sh
# Runs every test beside the proofs, the rig in its short form, and says what failed.
#
#     tests/all.sh [PRS PROBE]      the programs where rt leaves them without arguments
#
# The exit status is 1 on any failure.
set -u
cd "$(dirname "$0")/.." || exit 1
prs=${1:-crates/prs/out/prs}
probe=${2:-crates/probe/out/probe}
failed=""

# run NAME COMMAND..: shows failures and the last line
run() {
    name=$1
    shift
    if said=$("$@"); then
        echo "$name: $(echo "$said" | tail -n 1)"
    else
        failed="$failed $name"
        echo "$name: failed"
        echo "$said" | tail -n 40
    fi
}

run header tests/header.py
run edges tests/edges.py
run money tests/money.py
run vectors tests/vectors.py
run report tests/report.py
run examples tests/examples.sh "$prs"
if [ $# -eq 0 ]; then
    run shell tests/shell.py
    run texts tests/texts.py
    run pictures tests/pictures.py
fi
run rig tests/rig.py --short --prs "$prs" --probe "$probe"

[ -z "$failed" ] || { echo "failed:$failed"; exit 1; }
