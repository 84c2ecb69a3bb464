#!/bin/sh
# Counts instructions per look and peak memory of each planner on each benchmark sheet, by valgrind.
#
# Instructions: two runs that differ by one call are held against each other, so that what the program
# itself takes drops out. Heap: valgrind's massif, less that of a run that plans nothing. Stack: the pages
# of the stack that were touched, as the system tells them, less those of a run that plans nothing.
#
# usage: ./instructions.sh [PLANNER...]     planners: library fast-swift fast-rounds
set -eu
cd "$(dirname "$0")"
cargo build --release -j1 --quiet
program=target/release/compare
scratch=$(mktemp -d)
trap 'rm -rf "$scratch"' EXIT

planners=${*:-library fast-swift fast-rounds}

instructions() { # sheet planner calls
    valgrind --tool=callgrind --callgrind-out-file=/dev/null \
        "$program" bench-one --sheet "$1" --planner "$2" --calls "$3" 2>&1 |
        sed -n 's/.*Collected : //p'
}

heap() { # sheet planner
    valgrind --tool=massif --peak-inaccuracy=0.0 --massif-out-file="$scratch/massif" \
        "$program" bench-one --sheet "$1" --planner "$2" --calls 1 >/dev/null 2>&1
    sed -n 's/^mem_heap_B=//p' "$scratch/massif" | sort -n | tail -1
}

stack() { # sheet planner
    "$program" bench-one --sheet "$1" --planner "$2" --calls 1 | sed -n 's/^stack \([0-9]*\) KiB/\1/p'
}

printf '%-16s%-14s%8s%20s%14s%14s\n' sheet planner looks instructions/look 'heap bytes' 'stack KiB'
"$program" bench-sheets | while read -r sheet looks; do
    bare_heap=$(heap "$sheet" nothing)
    bare_stack=$(stack "$sheet" nothing)
    for planner in $planners; do
        one=$(instructions "$sheet" "$planner" 1)
        two=$(instructions "$sheet" "$planner" 2)
        printf '%-16s%-14s%8s%20s%14s%14s\n' "$sheet" "$planner" "$looks" \
            "$(((two - one) / looks))" \
            "$(($(heap "$sheet" "$planner") - bare_heap))" \
            "$(($(stack "$sheet" "$planner") - bare_stack))"
    done
done
