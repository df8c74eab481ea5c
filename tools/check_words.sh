#!/usr/bin/env bash
# Compares what ./statesman or ./player says of words before there is a program with what the program says:
# tools/check_words.sh statesman PROGRAM, tools/check_words.sh player PROGRAM
# Words that the script refuses have to be refused by the program, with the same text and exit status, and others have to be taken by it.
# Prints each list of words at which they differ; the last line is `N passed, M failed`.
set -euo pipefail
top=$(dirname "$(dirname "$(readlink -f "${BASH_SOURCE[0]}")")")
script=$1 program=$2
work=$(mktemp -d)
trap 'rm -rf "$work"' EXIT
passed=0 failed=0

# With nothing kept and no toolchain the script can do no more than refuse words, or end with status 1.
mkdir "$work/bin"
printf '#!/bin/sh\nexit 1\n' >"$work/bin/rt"
chmod +x "$work/bin/rt"

compare() {
    local of_script=0 of_program=0
    PATH=$work/bin:$PATH XDG_CACHE_HOME=$work "$top/$script" "$@" </dev/null >"$work/script" 2>/dev/null || of_script=$?
    "$program" "$@" </dev/null >"$work/program" 2>/dev/null || of_program=$?
    if [ "$of_program" = 2 ] && [ "$of_script" = 2 ] && cmp -s "$work/script" "$work/program"; then
        passed=$((passed + 1))
    elif [ "$of_program" != 2 ] && [ "$of_script" = 1 ] && [ ! -s "$work/script" ]; then
        passed=$((passed + 1))
    else
        failed=$((failed + 1))
        echo "$script $*: the program ends with status $of_program, and the script alone with $of_script"
    fi
}

# A list of words in each line.
lists_of() {
    case $1 in
    statesman)
        cat <<'END'
--help
-h
help
--version
help serial
serial --help
serial -- --help
--form help serial
--form --help serial
serial
run
check
replay
roll
revert
gen
demo
serail
Serial
-
--
-- serial
serial --
serial -- --
serial serial
serial gen
check examples/pod.txt
examples/pod.txt
--form text
--form=text serial
serial --form json
run --form replay
replay --form=json
--form=text -- serial
serial -- --form=text
serial --form
serial --form=
serial --form -
serial --form=-
serial --form --
serial --form xml
serial --form=Text
serial --form text --form text
serial --form=text --form json
serial --for=text
serial -f text
serial --form=text=text
--=text serial
serial --pods 4
serial --seed 0
replay --seed=0
check --form text
check --pods 4
gen --form text
gen --pods 4
demo --pods=6
gen --pods 8 --seed 3
--seed 4294967295 gen --pods 10
gen --pods 5
gen --pods 04
gen --pods
gen --seed 4294967296
gen --seed 99999999999
gen --seed 007
gen --seed -1
gen --seed=-1
gen --seed=
demo --seed +1
demo --seed 1 --seed 1
roll --to 2
--to=0 revert
revert --to 4294967295
--to 7 -- roll
roll 2
roll --to
roll --to=
roll --to 4294967296
revert --to 99999999999
roll --to 007
revert --to -1
roll --to=-1
revert --to +1
roll --to two
roll --to 1 --to 1
revert --to=1 --to 2
roll --too 1
roll --to 1 revert
roll --form text
roll --to 1 --form text
revert --to 1 --form=json
revert --to 1 --pods 4
roll --to 1 --seed 0
serial --to 1
run --to=1
replay --to 1
check --to 0
gen --to 1
demo --to 1
END
        ;;
    player)
        cat <<'END'
--help
-h
help
--version
--from
--from 0
--from 5000
--from 4294967295
--from 4294967296
--from 007
--from -1
--from=5
--from x
--from 1 2
--from 1 --help
examples/pod.txt
-- --from 1
5
END
        ;;
    esac
}

compare
compare ''
while IFS= read -r line; do
    read -ra words <<<"$line"
    compare "${words[@]}"
done < <(lists_of "$script")
echo "$passed passed, $failed failed"
[ "$failed" = 0 ]
