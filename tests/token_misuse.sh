#!/usr/bin/env bash
# Two misuses of the tokens of open elements, each tried on a copy of the crates: the compiler must refuse both.
set -u
root=$(cd "$(dirname "$0")/.." && pwd)
work=$(mktemp -d)
trap 'rm -rf "$work"' EXIT
cp -r "$root/crates.txt" "$root/crates" "$work"
graph=crates/graphml/src/graph.rt
failed=0

# misuse LABEL ERROR LINE: with LINE before the closing of the inner graph, the compiler's first error must be ERROR
misuse() {
    cp "$root/$graph" "$work/$graph"
    sed -i "s|^\( *\)let node = graph.close(out);|\1$3\n&|" "$work/$graph"
    if cmp -s "$root/$graph" "$work/$graph"; then
        echo "token misuse not applied: $1"
        failed=1
        return
    fi
    local said first
    said=$(cd "$work/crates/graphml" && rt check 2>&1)
    first=$(grep -o -m1 'error\(\[[A-Za-z0-9-]*\]\)*' <<<"$said")
    if [ "$first" = "error[$2]" ]; then
        echo "token misuse refused: $1 ($2)"
    else
        echo "token misuse NOT refused as expected: $1 (expected $2)"
        tail -n 5 <<<"$said"
        failed=1
    fi
}

misuse 'returning with an inner graph open' linear-value-let-go 'if written.is_err() { return Err(RunGraph::open(out)); }'
misuse 'closing the outer graph under an open inner one' borrow-e0382 'run.close(out);'
exit $failed
