#!/usr/bin/env bash
# Prints where the program lies that ./statesman (crate statesman_cli) or ./player (statesman_player) runs, and builds it where there is none:
# tools/program_path.sh CRATE
set -euo pipefail
top=$(dirname "$(dirname "$(readlink -f "${BASH_SOURCE[0]}")")")
label=${1:?a crate is to be named: statesman_cli or statesman_player}
. "$top/tools/sources.sh"
program_of "$1"
printf '%s\n' "$program"
