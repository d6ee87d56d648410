#!/usr/bin/env bash
# Proves and builds archive_bench, and measures it: 10,000 and 100,000 puts of 100 bytes with a sync every 100, and 61,440 of which 20 sections
# are held, in memory and over a folder. Then lookups of 10,000 and 100,000 records, in one section and in 1,024 to a section.
#
# usage: crates/archive_bench/bench.sh [FOLDER]
#
# FOLDER lies on the disk that is measured; without it a new folder below /tmp does. For each run it prints the seconds from start to end
# (elapsed, and of the processor), and then what the program counted. Behind the lookups it prints how much longer the puts take with ten
# times as many records, and so the lookups by index and those by key, hits and misses together. It ends with status 1 where one of the
# three takes more than 13 times as long, as it may on a busy machine.
set -euo pipefail
cd "$(dirname "$0")"

place=$(mktemp -d "${1:-/tmp}/archive_bench.XXXXXX")
trap 'rm -rf "$place"' EXIT

rt run >"$place/built" # proves, builds and runs it once; the program stays as out/archive_bench
cmp stdout "$place/built"

TIMEFORMAT='elapsed %R s, processor %U + %S s'
for plan in "10000" "100000" "61440 20"; do
    read -r puts sections <<<"$plan"
    echo "== $puts puts in memory${sections:+, $sections sections held}"
    time out/archive_bench - "$puts" ${sections:+"$sections"} >"$place/memory-$puts"
    cat "$place/memory-$puts"
    echo "== $puts puts over a folder${sections:+, $sections sections held}"
    time out/archive_bench "$place/$puts" "$puts" ${sections:+"$sections"} >"$place/folder-$puts"
    # over a folder it counts the same
    cmp "$place/memory-$puts" "$place/folder-$puts"
    du -s --apparent-size --block-size=1 "$place/$puts"
done

slow=0
for items in 1048576 1024; do
    for puts in 10000 100000; do
        echo "== $puts puts and lookups, $items to a section"
        out/archive_bench - "$puts" look "$items" >"$place/counts" 2>"$place/times-$puts"
        cat "$place/counts" "$place/times-$puts"
    done
    echo "== 100000 records against 10000, $items to a section"
    awk -F': | us' '
        { phase = $1 ~ /^index/ ? "by index" : $1 ~ /^key/ ? "by key" : $1 }
        phase != "filling" && phase !~ /^by / { next }
        NR == FNR { few[phase] += $2; next }
        { many[phase] += $2 }
        END {
            for (phase in many) {
                ratio = many[phase] / few[phase]
                printf "%s: %.1f times\n", phase, ratio
                # Each goes over all records, so ten times as many take ten times as long, and a little more as caches fill.
                slow += ratio > 13
            }
            exit slow > 0
        }
    ' "$place/times-10000" "$place/times-100000" || { echo "one took more than 13 times as long"; slow=1; }
done
exit "$slow"
