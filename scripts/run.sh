#!/bin/sh
# Builds the program and judges a capture: the sample that ships with the project, the file named, or with - what comes
# on standard input. Its lines come out as they are printed.
#
# Exit status: 0 if the capture was read to its end, so that the last line has the totals; 1 if it is damaged, so that the
# last line is `stopped ..`; 2 if there is no such last line, or it didn't come out: standard error says why.
set -eu
capture=${1:-}
case $capture in
'') exec <"$(dirname "$0")/../crates/judge_capture/stdin" ;;
-) ;;
*)
    if [ ! -r "$capture" ]; then
        echo "run: $capture is not there, or may not be read" >&2
        exit 2
    fi
    exec <"$capture"
    ;;
esac
cd "$(dirname "$0")/.."
{ scripts/setup.sh run && scripts/x86.sh program judge_capture; } </dev/null >&2 || exit 2

work=$(mktemp -d)
trap 'rm -rf "$work"' EXIT
trap 'exit 2' INT TERM
mkfifo "$work/copy"
tail -n 1 <"$work/copy" >"$work/last" &
out=yes
scripts/x86.sh run target/bin/judge_capture | tee "$work/copy" || out=no
wait
case $out:$(cat "$work/last") in
yes:records\ *) exit 0 ;;
yes:stopped\ *) exit 1 ;;
*) exit 2 ;;
esac
