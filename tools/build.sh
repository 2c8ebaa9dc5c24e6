#!/usr/bin/env bash
# Proves and builds the programs that are named, each into target/bin/, and tells how far it is:
#
#     bash tools/build.sh compose runfile walkthrough
#
# The crates below a program are proved first, lowest first. What was proved before, and has not
# changed, takes seconds.
set -eu
cd "$(dirname "$0")/.."
mkdir -p target/bin target/log

# The crates that these programs stand on, in the order of crates.txt, and then the programs.
below() {
    awk -F: -v wanted="$*" '
        !/^#/ && NF > 1 { order[++n] = $1; deps[$1] = $2 }
        END {
            split(wanted, names, " ")
            for (i in names) {
                split(deps[names[i]], needed, " ")
                for (j in needed) below[needed[j]] = 1
            }
            for (i = 1; i <= n; i++) if (order[i] in below) print order[i]
        }' crates.txt
}

# The lines of a check that say how far it is, one over the other where somebody looks on.
progress() {
    while IFS= read -r line; do
        printf '%s\n' "$line" >>"$1"
        case $line in
            'checked '*' of '* | 'so far: '*)
                if [ -t 2 ]; then printf '\r\033[K%s  %s' "$2" "$line" >&2; fi
                ;;
        esac
    done
    if [ -t 2 ]; then printf '\r\033[K' >&2; fi
}

fail() {
    tail -n 40 "$1" >&2
    echo "not built: $2" >&2
    exit 1
}

mapfile -t libraries < <(below "$@")
total=$((${#libraries[@]} + $#))
at=0
for name in "${libraries[@]}" "$@"; do
    at=$((at + 1))
    log=$PWD/target/log/$name.log
    began=$SECONDS
    : >"$log"
    if [ -e "crates/$name/src/main.rt" ]; then
        echo "[$at/$total] $name: proving and building" >&2
        # `rt run` runs what it has built, here with no input; what the program makes of that says
        # nothing of the build.
        (cd "crates/$name" && rt run </dev/null 2>&1 || true) | progress "$log" "[$at/$total]"
        grep -q '^rt: running ' "$log" || fail "$log" "$name"
        cp "crates/$name/out/$name" target/bin/
    else
        echo "[$at/$total] $name: proving" >&2
        (cd "crates/$name" && rt lib 2>&1 || echo 'rt lib failed') | progress "$log" "[$at/$total]"
        if grep -q '^rt lib failed$' "$log"; then fail "$log" "$name"; fi
    fi
    echo "[$at/$total] $name: done, $((SECONDS - began)) s" >&2
done
