#!/usr/bin/env bash
# Runs the program under valgrind's memcheck on each example, or on the files that are given: tools/memcheck.sh [FILE..]
# With check, serial, run, roll and revert, with replay of what run printed, and once with gen and demo.
# Prints a line for each run with what valgrind found; the exit status is 1 where it found an error or a leak.
# PROGRAM=PATH names another program than the one that ./statesman runs.
set -uo pipefail
top=$(cd "$(dirname "${BASH_SOURCE[0]}")/.." && pwd)
program=${PROGRAM:-$("$top/tools/program_path.sh" statesman_cli)}
if [ ! -x "$program" ]; then
    echo "no program at '$program'"
    exit 2
fi
[ $# -gt 0 ] || set -- "$top"/examples/*.txt
found=0
said=$(mktemp -d)
trap 'rm -rf "$said"' EXIT

# try NAME FILE WORDS..: what valgrind finds, and whether the program ends under it as it does without. Leaves its output in $said/output.
# Where threads work their order is free, and with it the output, so of run the status alone is compared.
try() {
    local name=$1 document=$2 status wanted errors heap
    shift 2
    valgrind --leak-check=full --show-leak-kinds=all --track-origins=yes --error-exitcode=99 --errors-for-leak-kinds=all \
        --log-file="$said/log" "$program" "$@" <"$document" >"$said/output"
    status=$?
    "$program" "$@" <"$document" >"$said/wanted"
    wanted=$?
    errors=$(grep -o 'ERROR SUMMARY: .*' "$said/log" | tail -1)
    heap=$(grep -E 'in use at exit|total heap usage' "$said/log" | sed 's/^==[0-9]*== *//' | tr -s ' ' | tr '\n' ';')
    echo "$* $name: status $status; $heap ${errors#ERROR SUMMARY: }"
    if [ "$status" != "$wanted" ] || { [ "$1" != run ] && ! cmp -s "$said/output" "$said/wanted"; }; then
        found=1
        cat "$said/log"
    fi
}

for document in "$@"; do
    name=$(basename "$document")
    try "$name" "$document" check
    try "$name" "$document" serial
    try "$name" "$document" run
    try "$name" "$document" roll --to 2
    try "$name" "$document" revert --to 0
    try "$name" "$document" run --form replay
    cp "$said/output" "$said/printed"
    try "what run printed of $name" "$said/printed" replay
done
try "of nothing" /dev/null gen
try "of nothing" /dev/null demo
exit $found
