# shellcheck shell=bash
# How ./statesman and ./player run their programs: the proved one where these sources were proved here (./prove), and else one that was built of
# the same code without its proofs, which the first run does; a line on standard error says so at each run.
# Standard output and the exit status are the program's, and all that is said here goes to standard error.
# These scripts set top, label, crate and proof, the command that proves the program, and have two functions:
# - read_words WORDS.. leaves in why which word is not taken, in a sentence, and nothing where the words are a command; and in
#   reads_input whether this command reads standard input. The program decides; this saves a build where the words are none, and tells why.
# - usage prints which words there are.
# shellcheck disable=SC2154
. "$top/tools/sources.sh"

# A number as docs/FORMATS.md has it: one to ten digits, no zero before others, at most 4294967295.
is_number() {
    local LC_ALL=C
    [[ $1 =~ ^(0|[1-9][0-9]{0,9})$ ]] && [ "$1" -le 4294967295 ]
}

# Whether the words ask how to call the program. None of its commands has such a word.
asks_for_usage() {
    local word
    [ $# -gt 0 ] || [ -z "$why" ] || return 0
    for word; do
        case $word in --help | -h | help | --version) return 0 ;; esac
    done
    return 1
}

# Told once more where a status is not 0, for who has standard output in a file.
meaning_of() {
    case $1 in
    3) echo "standard input could not be read" ;;
    4) echo "standard input is too long" ;;
    5) echo "standard input has a bad line, which standard output names" ;;
    6) echo "a journal is full, which standard output names" ;;
    7) echo "an entry of a journal has a wrong reply, which standard output names" ;;
    8) echo "standard output could not be written" ;;
    9) echo "there was not enough memory" ;;
    *) echo "it did not end as it should" ;;
    esac
}

run_program() {
    local status=0
    why='' reads_input=''
    read_words "$@"
    if asks_for_usage "$@" || { [ -n "$why" ] && ! find_program "$crate"; }; then
        # What the program prints and ends with at words that are none of its own: ./test compares it.
        printf 'fault usage\n' 2>/dev/null || exit 8
        status=2
    else
        program_of "$crate"
        [ -n "$is_proved" ] || say "this program's proofs were not checked on this machine: $proof does that"
        [ -z "$reads_input" ] || [ ! -t 0 ] || say "reads standard input, which is the terminal here: <FILE reads a file, and Ctrl-D ends what is typed"
        "$program" "$@" || status=$?
    fi
    if [ "$status" = 2 ]; then
        asks_for_usage "$@" || say "${why:-these words are not taken}"
        usage >&2
    elif [ "$status" != 0 ] && [ "$label" = player ]; then
        say "no page, and status $status: $(meaning_of "$status")"
    fi
    exit "$status"
}
