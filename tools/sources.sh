# shellcheck shell=bash
# Of a program of this repository: its crates, where it lies once it is built, and what is said of it. For scripts that set top, and label, the word that they begin what they say with.

# Where programs are kept, so that each clone finds them. All of it may be removed at any time.
case ${XDG_CACHE_HOME:-} in
/*) kept=$XDG_CACHE_HOME/statesman ;;
*) kept=~/.cache/statesman ;;
esac
programs=$kept/programs

# shellcheck disable=SC2154
say() { printf '%s: %s\n' "$label" "$*" >&2; }

# Says where what builds is not there, and fails then. Leaves the folder of the toolchain in kit.
need_toolchain() {
    local page
    command -v rt >/dev/null || { say "there is no command rt here: README.md, \"Try it\", names the toolchain that has it" && return 1; }
    command -v python3 >/dev/null || { say "there is no command python3 here, which the toolchain and tools/ need" && return 1; }
    page=$(rt doc) || true
    # shellcheck disable=SC2034
    kit=${page%/*}
    [ -x "$kit/bin/rattle" ] || { say "rt doc names no page of a toolchain: README.md, \"Try it\", names the toolchain that these scripts know" && return 1; }
}

# The lines of crates.txt for a program and all that it stands on, lowest first.
# shellcheck disable=SC2154
lines_of() {
    awk -F '[: ]+' -v program="$1" '!/^#/ { name[++n] = $1; stands[n] = $0 }
        END {
            wanted[program]
            for (i = n; i > 0; i--) if (name[i] in wanted) { split(stands[i], below); for (j in below) wanted[below[j]] }
            for (i = 1; i <= n; i++) if (name[i] in wanted) print stands[i]
        }' "$top/crates.txt"
}

# A sum of what a program is made of: its lines of crates.txt, HANDLES, and the files of its crates that find's words behind the program choose.
sum_of() {
    local names
    mapfile -t names < <(lines_of "$1" | cut -d : -f 1)
    (
        cd "$top" || exit
        lines_of "$1"
        cat HANDLES
        find "${names[@]/#/crates/}" -name out -prune -o -type f "${@:2}" -print0 | LC_ALL=C sort -z | xargs -0r sha256sum
    ) | sha256sum | cut -c 1-16
}

# Where the proved program lies, by its code, its definitions and its proofs.
proved_path() {
    printf '%s/%s-proved-%s\n' "$programs" "$1" "$(sum_of "$1" \( -name '*.rt' -o -name '*.antt' \))"
}

# Where the program lies that is built without proofs, by its code alone.
unproved_path() {
    printf '%s/%s-unproved-%s\n' "$programs" "$1" "$(sum_of "$1" -name '*.rt')"
}

# Leaves in program where a program lies, the proved one if it is there, and in is_proved whether it is that one. Fails where there is none.
find_program() {
    program=$(proved_path "$1") is_proved=yes
    [ ! -x "$program" ] || return 0
    # shellcheck disable=SC2034
    program=$(unproved_path "$1") is_proved=
    [ -x "$program" ]
}

# The same, and builds the program without its proofs where there is none.
program_of() {
    local begin=$SECONDS
    ! find_program "$1" || return 0
    need_toolchain || exit 1
    keep_others_out "$1"
    if [ ! -x "$program" ]; then
        say "the first run builds the program without its proofs, in two to three minutes"
        python3 "$top/tools/unproved_program.py" --crate "$1" "$program" </dev/null >&2 || { say "the program could not be built so; ./prove proves and builds it, by other commands of the toolchain"; exit 1; }
        say "built in $((SECONDS - begin)) seconds"
    fi
    exec 9>&-
}

# Lets one script at a time build what has this name: waits for another one, and keeps others out until file 9 is closed.
keep_others_out() {
    mkdir -p "$programs" || { say "nothing can be kept in $kept: XDG_CACHE_HOME names another folder"; exit 1; }
    exec 9>"$kept/$1.lock"
    flock -n 9 || { say "another script builds this: waiting for it"; flock 9; }
}
