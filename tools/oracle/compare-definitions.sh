#!/bin/sh
# Compares the definitions in crates/*/specs with the Rust: random cases of all calls and the worked cases become rows of a crate
# that the prover checks by computation. Says 'N rows agree', or shows the first row that does not.
# usage: compare-definitions.sh COUNT SEED
set -eu

if [ $# -ne 2 ]; then
    echo "usage: $0 COUNT SEED" >&2
    exit 2
fi
count=$1
seed=$2
here=$(cd "$(dirname "$0")" && pwd)
root=$(cd "$here/../.." && pwd)
work=$(mktemp -d)
trap 'rm -rf "$work"' EXIT

(cd "$here" && cargo build --release --offline --quiet --target-dir target)
oracle=$here/target/release/oracle

# a copy of the repository's crates, with what is already proved of them, and one more crate
prepare() {
    mkdir -p "$work/crates"
    for crate in names records ordering walk; do
        cp -R "$root/crates/$crate" "$work/crates"
    done
    printf 'names:\nrecords: names\nordering: records names\nwalk: ordering records names\nrows: walk ordering records names\n' > "$work/crates.txt"
    mkdir -p "$work/crates/rows/src" "$work/crates/rows/specs" "$work/crates/rows/proofs"
    printf '// Trivial code, so that the crate has a source file.\n#![tactic(auto)]\n\npub fn one() -> u64 {\n    1\n}\n' > "$work/crates/rows/src/lib.rt"
    : > "$work/crates/rows/specs/Lib.antt"
    echo 'pub mod Rows' > "$work/crates/rows/proofs/Lib.antt"
}

# most rows are of small forms; one in eight may be large, as forms at the limits are. The prover computes no row of a much larger cost.
lines() {
    large=$((count / 8))
    "$oracle" cases
    "$oracle" vectors --call all --count $((count - large)) --seed "$seed" --max-bytes 330 --max-cost 30000
    "$oracle" vectors --call all --count "$large" --seed $((seed + 1)) --max-bytes 1500 --max-cost 30000
}

# whether the definitions answer the lines of a file as they say
agree() {
    "$oracle" rows < "$1" > "$work/crates/rows/proofs/Rows.antt"
    (cd "$work/crates/rows" && rt check) > "$work/log" 2>&1
}

# the lines of the first batch that was not proved
suspects() {
    batch=$(sed -n 's/.*error: `batch-\([0-9]*\)`.*/\1/p' "$work/log" | head -n 1)
    if [ -z "$batch" ]; then
        cat "$work/log"
        echo "the check failed, and not at a row" >&2
        exit 1
    fi
    range=$(sed -n "s/^-- batch-$batch: lines //p" "$work/crates/rows/proofs/Rows.antt")
    sed -n "${range}p" "$work/lines" > "$work/suspects"
}

# halves them until one is left
narrow() {
    while [ "$(wc -l < "$work/suspects")" -gt 1 ]; do
        half=$((($(wc -l < "$work/suspects") + 1) / 2))
        head -n "$half" "$work/suspects" > "$work/part"
        if agree "$work/part"; then
            tail -n +$((half + 1)) "$work/suspects" > "$work/part"
        fi
        mv "$work/part" "$work/suspects"
    done
}

prepare
lines > "$work/lines"
if agree "$work/lines"; then
    echo "$(wc -l < "$work/lines" | tr -d ' ') rows agree"
else
    suspects
    narrow
    echo "the definitions do not answer this row so:"
    cat "$work/suspects"
    exit 1
fi
