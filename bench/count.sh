#!/bin/sh
# Prints for each call of 'PROGRAM WHAT' its line, a bar, and the instructions between begin() and end(), as
# qemu-x86_64 runs them one at a time. Whoever counts instructions here does it by this.
#
#   count.sh PROGRAM WHAT [FILE]   FILE gets the addresses of all these instructions, an empty line after each call
set -eu
program=$1 what=$2 addresses=${3:-/dev/null}

# newer emulators have another name for the option
single=-one-insn-per-tb
qemu-x86_64 -h | grep -q -e "$single" || single=-singlestep

work=$(mktemp -d)
trap 'rm -rf "$work"' EXIT
: >"$addresses"
qemu-x86_64 $single -d exec,nochain "$program" "$what" 2>&1 >"$work/lines" | awk -v addresses="$addresses" '
    /^bench: / { print >"/dev/stderr"; failed = 1; exit }
    $NF == "begin" { n = 0; on = 1; next }
    $NF == "end" && on { print n; print "" >addresses; on = 0 }
    on && $NF !~ /^counted/ { n++; split($4, at, "/"); print at[2] >addresses }
    END { exit failed }' >"$work/counts"
if [ ! -s "$work/lines" ] || [ "$(wc -l <"$work/lines")" -ne "$(wc -l <"$work/counts")" ]; then
    echo "count: '$program $what' didn't run to its end" >&2
    exit 1
fi
paste -d '|' "$work/lines" "$work/counts" | sed 's/|\([0-9]*\)$/ | \1/'
