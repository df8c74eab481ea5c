#!/usr/bin/env bash
# Has the prover refuse the planted bugs that the gate does not try: tools/planted_bugs.sh [--anew] CRATE.., or --all in place of the names.
# They lie in crates/CRATE/planted, and are written as those in must-fail/ are. They are tried in a copy of the crates, where planted/ stands in the
# place of must-fail/, by `rt must-fail`: it begins with what `rt check` and `rt ci` left of the crates in this checkout, of which the copy has its own, and
# tries again only what changed (--anew: all). In a checkout where nothing was proved, all crates below are proved first.
# A line tells of each bug. Then comes a row for each crate, as the table in docs/TESTING.md has them: how many bugs were tried and how many of these
# refused, and the processor minutes. The last line is 'N refused, M not refused'; a bug that could not be applied, compiled or tried is not refused.
set -euo pipefail
top=$(cd "$(dirname "${BASH_SOURCE[0]}")/.." && pwd)

stop() {
    printf 'planted_bugs: %s\n' "$*" >&2
    exit 2
}

anew=()
if [ "${1-}" = --anew ]; then
    anew=(--anew)
    shift
fi
[ $# -gt 0 ] || stop "name a crate, or --all: tools/planted_bugs.sh [--anew] CRATE.."
names=("$@")
if [ "$1" = --all ]; then
    [ $# -eq 1 ] || stop "--all stands alone"
    # in the order of crates.txt, lowest first
    mapfile -t names < <(sed -n 's/^\([a-z0-9_]*\).*:.*/\1/p' "$top/crates.txt" | while read -r name; do [ ! -d "$top/crates/$name/planted" ] || echo "$name"; done)
fi
for name in "${names[@]}"; do
    [ -d "$top/crates/$name" ] || stop "there is no crate $name"
    [ -d "$top/crates/$name/planted" ] || stop "$name has no planted bugs beside those in must-fail/ (crates/$name/planted)"
done

work=$(mktemp -d)
trap 'rm -rf "$work"' EXIT
copy=$work/copy
mkdir -p "$copy/crates"
cp "$top/crates.txt" "$top/HANDLES" "$copy/"
for crate in "$top"/crates/*; do
    mkdir "$copy/crates/${crate##*/}"
    mkdir "$copy/crates/${crate##*/}/out"
    for part in src specs proofs out/rlib out/incremental; do
        [ ! -d "$crate/$part" ] || cp -Rp "$crate/$part" "$copy/crates/${crate##*/}/$part"
    done
done

state="$(date -u +%F), commit $(git -C "$top" rev-parse --short HEAD)"
[ -z "$(git -C "$top" status --porcelain -- crates)" ] || state="$state, and what is changed since"
rows=() refused=0 others=0
TIMEFORMAT='%U %S'
# Tries the bugs of one crate, prints what came of each and adds its row.
try() {
    local bugs before=$refused count minutes
    cp -R "$top/crates/$1/planted" "$copy/crates/$1/must-fail"
    bugs=("$copy/crates/$1/must-fail/"*)
    { time { (cd "$copy" && rt must-fail ${anew[@]+"${anew[@]}"} "$1") >"$work/log" 2>&1 || true; }; } 2>"$work/time"
    for bug in "${bugs[@]}"; do
        tell "$1" "${bug##*/}"
    done
    count=$((refused - before))
    minutes=$(awk '{ printf "%.1f", ($1 + $2) / 60 }' "$work/time")
    # what an earlier run tried took its minutes there
    ! grep -q "^rt: $1: .* were tried by an earlier run" "$work/log" || minutes="$minutes, some were tried before"
    rows+=("| \`$1\` | ${#bugs[@]} | $count refused | $minutes |")
    rm -rf "$copy/crates/$1/must-fail" "$copy/crates/$1/out/incremental"
}

# Says what came of a bug, by the line that names it: 'rt: must-fail CRATE/BUG.edit: refused, ..'.
tell() {
    local said
    said=$(grep -F " $1/$2: " "$work/log" | head -n 1) || said=
    case $said in
    *" $1/$2: refused"*)
        refused=$((refused + 1))
        said=${said#*: refused, as it must be}
        # in brackets stands why a refusal says little of the contract
        echo "$1/${2%.edit}: refused$(case $said in ' ('*) echo "$said" ;; esac)"
        ;;
    "")
        others=$((others + 1))
        echo "$1/${2%.edit}: NOT TRIED:"
        tail -n 10 "$work/log"
        ;;
    *)
        others=$((others + 1))
        echo "$1/${2%.edit}: ${said#*"$2: "}"
        ;;
    esac
}

for name in "${names[@]}"; do
    try "$name"
done
echo
echo "$state:"
echo
echo "| crate | bugs | result | minutes |"
echo "|---|---|---|---|"
printf '%s\n' "${rows[@]}"
echo
echo "$refused refused, $others not refused"
[ "$others" -eq 0 ]
