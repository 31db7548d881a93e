#!/usr/bin/env bash
# What tora.bash offers for a line of which the last word is being written; for dev/check.sh.
# usage: offers.sh 'tora sim --t'
set -u
. "$(dirname "$0")/tora.bash"
read -r -a COMP_WORDS <<<"$1"
[[ $1 != *' ' ]] || COMP_WORDS+=('')
COMP_CWORD=$((${#COMP_WORDS[@]} - 1))
_tora
echo "${COMPREPLY[*]}"
