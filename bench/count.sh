#!/usr/bin/env bash
# Counts instructions on both sides with valgrind, where other work on the machine disturbs the times:
# of a read, and of a call of a list. What the program costs around them is taken off by a second, shorter run.
set -euo pipefail
cd "$(dirname "$0")"
./build.sh
harness=harness/target/release/harness

# How many instructions WHAT SHAPE SIDE TIMES takes.
count() {
    valgrind --tool=callgrind --callgrind-out-file=/dev/null "$harness" repeat "$@" 2>&1 >/dev/null |
        sed -n 's/.*Collected : \([0-9]*\).*/\1/p'
}

# How many calls the list of a shape has.
calls() {
    "$harness" repeat step "$1" plain 1 | sed -n 's/calls=//p'
}

# Tells one comparison: WHAT SHAPE, and how many parts each repetition has.
compare() {
    local proved plain
    proved=$((($(count "$1" "$2" proved 60) - $(count "$1" "$2" proved 10)) / (50 * $3)))
    plain=$((($(count "$1" "$2" plain 60) - $(count "$1" "$2" plain 10)) / (50 * $3)))
    echo "count $1 shape=$2 proved=$proved plain=$plain ratio=$(awk "BEGIN { printf \"%.2f\", $proved / $plain }")"
}

for shape in chain web small; do
    compare read "$shape" 1
done
for shape in chain64 tree crossing; do
    compare step "$shape" "$(calls "$shape")"
done
