#!/bin/sh
# Runs scripts/run.sh and make run: their exit status, all their output, names of files that a shell or make could take
# apart, and a live pipe.   wrapper.sh SAMPLE    the rules' capture of 37 bytes
set -eu
sample=$(realpath "$1")
cd "$(dirname "$0")/../.."
run=$PWD/scripts/run.sh
dir=$(mktemp -d)
trap 'rm -rf "$dir"' EXIT
checks=0 failed=0

same() { # WHAT WANT GOT
    checks=$((checks + 1))
    [ "$2" = "$3" ] && return
    failed=$((failed + 1))
    printf 'wrapper: %s: wanted\n%s\nand got\n%s\n' "$1" "$2" "$3"
}

# What a command prints, and its exit status on a last line.
said() { # WORDS..
    status=0
    "$@" 2>"$dir/said" || status=$?
    echo "status $status"
}

whole='record 1 verdict 2
record 2 verdict 0
records 2 good 1 unsummed 0 refused 1'
same 'the sample' "$whole
status 0" "$(said "$run")"
head -c 30 "$sample" >"$dir/cut"
same 'a damaged capture' 'record 1 verdict 2
stopped 15 after 1
status 1' "$(said "$run" "$dir/cut")"
same 'no such file' 'status 2' "$(said "$run" "$dir/missing")"
same 'a directory' 'status 2' "$(said "$run" "$dir")"
if [ -w /dev/full ]; then
    status=0
    "$run" "$sample" >/dev/full 2>"$dir/said" || status=$?
    same 'a full disk' 2 "$status"
fi

# shellcheck disable=SC2016
for name in 'a b' -n "it's" 'a "b" $c'; do
    cp "$sample" "$dir/$name"
    same "the file $name" "$whole
status 0" "$(cd "$dir" && said "$run" "$name")"
    same "make: the file $name" "$whole
status 0" "$(said make --no-print-directory run CAPTURE="$dir/$name")"
done
same 'make: a damaged capture' 'record 1 verdict 2
stopped 15 after 1
status 2' "$(said make --no-print-directory run CAPTURE="$dir/cut")"

# Twenty thousand lines, behind what the file has already.
{ printf 'GLR\000\001' && head -c 40000 /dev/zero; } >"$dir/long"
echo before >"$dir/out"
same 'a long capture' 'status 0' "$(said "$run" "$dir/long" >>"$dir/out" && tail -n 1 "$dir/out" && sed -i '$d' "$dir/out")"
same 'its lines' 'before
record 1 verdict 2
20002
records 20000 good 0 unsummed 0 refused 20000' "$(head -n 2 "$dir/out" && wc -l <"$dir/out" && tail -n 1 "$dir/out")"

# A live radio on standard input: the first record's line is out while the second is still awaited.
mkfifo "$dir/radio"
{ "$run" - <"$dir/radio" >"$dir/live" 2>"$dir/said" && status=0 || status=$?; echo "$status" >"$dir/status"; } &
exec 3>"$dir/radio"
head -c 9 "$sample" >&3
waited=0
while [ ! -s "$dir/live" ] && [ $waited -lt 300 ]; do
    sleep 0.1
    waited=$((waited + 1))
done
same 'live: the first line before the second record' 'record 1 verdict 2' "$(cat "$dir/live")"
tail -c +10 "$sample" >&3
exec 3>&-
wait
same 'live: the end' "$whole
0" "$(cat "$dir/live" "$dir/status")"

echo "wrapper: $checks checks, $failed failed"
[ $failed -eq 0 ]
