#!/bin/sh
# Runs the program judge_capture on good, damaged and missing input, and sees that a line is out before the next
# record is waited for.   program.sh JUDGE_CAPTURE SAMPLE    an x86-64 program, and the rules' capture of 37 bytes
set -eu
x86=$(dirname "$0")/../../scripts/x86.sh
judge_capture=$1 sample=$2
dir=$(mktemp -d)
trap 'rm -rf "$dir"' EXIT
checks=0 failed=0

same() { # WHAT WANT GOT
    checks=$((checks + 1))
    [ "$2" = "$3" ] && return
    failed=$((failed + 1))
    printf 'program: %s: wanted\n%s\nand got\n%s\n' "$1" "$2" "$3"
}

# What the program prints for the file in.
printed() { "$x86" run "$judge_capture" <"$dir/in" 2>"$dir/said" || echo "exit status $?"; }

one='record 1 verdict 2'
cut=0
while [ $cut -le 37 ]; do
    head -c $cut "$sample" >"$dir/in"
    case $cut in
    0 | 1 | 2) want='stopped 13 after 0' ;;
    3 | 4) want='stopped 14 after 0' ;;
    5) want='records 0 good 0 unsummed 0 refused 0' ;;
    6) want='stopped 15 after 0' ;;
    7) want="$one
records 1 good 0 unsummed 0 refused 1" ;;
    37) want="$one
record 2 verdict 0
records 2 good 1 unsummed 0 refused 1" ;;
    *) want="$one
stopped 15 after 1" ;;
    esac
    same "the sample cut to $cut bytes" "$want" "$(printed)"
    cut=$((cut + 1))
done

printf 'GLS\000\001' >"$dir/in"
same 'another mark' 'stopped 13 after 0' "$(printed)"
printf 'GLR\000\002' >"$dir/in"
same 'version 2' 'stopped 14 after 0' "$(printed)"
{ printf 'GLR\000\001\010\000' && head -c 2048 /dev/zero; } >"$dir/in"
same 'a record of 2,048' 'record 1 verdict 3
records 1 good 0 unsummed 0 refused 1' "$(printed)"
{ printf 'GLR\000\001\010\001' && head -c 2049 /dev/zero; } >"$dir/in"
same 'a record of 2,049' 'stopped 15 after 0' "$(printed)"

# A read that fails is told from the end of input, in words and by the exit status.
words() { if grep -q 'cannot read standard input' "$dir/said"; then echo yes; else cat "$dir/said"; fi; }
same 'a directory' '' "$("$x86" run "$judge_capture" <"$dir" 2>"$dir/said")"
same 'a directory, in words' yes "$(words)"
same 'a closed standard input' '' "$("$x86" run "$judge_capture" <&- 2>"$dir/said")"
same 'a closed standard input, in words' yes "$(words)"
same 'a directory, by the exit status' 1 "$("$x86" run "$judge_capture" <"$dir" 2>/dev/null || echo $?)"
same 'a closed standard input, by the exit status' 1 "$("$x86" run "$judge_capture" <&- 2>/dev/null || echo $?)"

# A live radio: the first record's line is there while the second is still awaited.
mkfifo "$dir/radio"
"$x86" run "$judge_capture" <"$dir/radio" >"$dir/out" &
exec 3>"$dir/radio"
head -c 9 "$sample" >&3
waited=0
while [ ! -s "$dir/out" ] && [ $waited -lt 100 ]; do
    sleep 0.1
    waited=$((waited + 1))
done
same 'the first line before the second record' "$one" "$(cat "$dir/out")"
exec 3>&-
wait
same 'the end of the radio' "$one
stopped 15 after 1" "$(cat "$dir/out")"

echo "program: $checks checks, $failed failed"
[ $failed -eq 0 ]
