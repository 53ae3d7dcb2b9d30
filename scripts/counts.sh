#!/bin/sh
# Holds the instructions of sixteen calls to the table in bench/counts.txt: each within 3 per cent.
# They are exact on any machine, since the archive is the same code everywhere. More is a loss; less is a gain that the
# table must be told of. Either fails.
#
#   counts.sh               counts and compares
#   counts.sh --write       counts and renews the table
#   counts.sh --self-test   sees that planted tables are refused
# HIFROSTUM_SKIP_C=1 leaves it out.
set -eu
cd "$(dirname "$0")/.."
x86=scripts/x86.sh out=target/bench table=bench/counts.txt calls=16

# Counts the calls into $out/counts.txt.
count() {
    mkdir -p $out
    archive=$($x86 lib)/libhifrostum.a
    $x86 cc -O2 -std=c11 -Wall -Wextra -Iinclude -DONLY_OURS -static bench/bench.c "$archive" -o $out/watched
    bench/count.sh $out/watched watched >$out/counted
    sed 's/ | ours | / | /' $out/counted >$out/counts.txt
}

# Compares two tables of lines 'operation | packet | count', and says which calls are off.
compare() { # TABLE COUNTED
    awk -F ' *[|] *' -v calls=$calls '
        function off(why) { print "counts: " call ": " $3 " instructions, " why; wrong++ }
        FILENAME == ARGV[1] { want[$1 " | " $2] = $3; lines++; next }
        { call = $1 " | " $2; met++ }
        !(call in want) { off("and the table has no such call"); next }
        100 * $3 > 103 * want[call] { off("more than the " want[call] " of the table") }
        100 * $3 < 97 * want[call] { off("less than the " want[call] " of the table, which is to be renewed") }
        END {
            if (met == calls && lines == calls) exit wrong != 0
            print "counts: " met + 0 " calls, " lines + 0 " in the table: not " calls
            exit 1
        }' "$1" "$2"
}

# A table that is right passes; one with a count 4 per cent off in either direction doesn't, nor one with a call less,
# more or other than counted, nor an empty one.
self_test() {
    work=$(mktemp -d)
    trap 'rm -rf "$work"' EXIT
    awk -v calls=$calls 'BEGIN { for (i = 1; i <= calls; i++) print "call | packet " i " | " 100 * i }' >"$work/right"
    cp "$work/right" "$work/equal"
    awk -F ' *[|] *' '{ print $1 " | " $2 " | " $3 / 100 * (NR % 2 ? 103 : 97) }' "$work/right" >"$work/near"
    sed 's/| 300$/| 312/' "$work/right" >"$work/more"
    sed 's/| 300$/| 288/' "$work/right" >"$work/less"
    sed '3d' "$work/right" >"$work/missing"
    sed '3s/.*/&\n&/' "$work/right" >"$work/twice"
    sed '3s/packet 3/packet 0/' "$work/right" >"$work/other"
    : >"$work/empty"
    for good in equal near; do
        compare "$work/right" "$work/$good" >"$work/said" || {
            echo "counts: a table with counts that are $good is refused: $(cat "$work/said")" >&2
            exit 1
        }
    done
    for wrong in more less missing twice other empty; do
        for turned in "$work/right $work/$wrong" "$work/$wrong $work/right"; do
            # shellcheck disable=SC2086
            if compare $turned >"$work/said"; then
                echo "counts: a table with a planted fault passes: $wrong" >&2
                exit 1
            fi
        done
    done
    echo "counts: 12 planted faults are refused"
}

if [ "${1:-}" = --self-test ]; then
    self_test
    exit 0
fi
if [ "${HIFROSTUM_SKIP_C:-}" = 1 ]; then
    echo "counts: HIFROSTUM_SKIP_C=1, so no instruction is counted"
    exit 0
fi
if ! command -v qemu-x86_64 >/dev/null; then
    echo "counts: there is no qemu-x86_64 here, so no instruction is counted"
    exit 0
fi
case ${1:-} in
'')
    count
    compare $table $out/counts.txt || {
        echo "counts: read docs/PERFORMANCE.md; scripts/counts.sh --write renews the table" >&2
        exit 1
    }
    echo "counts: $(wc -l <$table) calls have as many instructions as in $table, within 3 per cent"
    ;;
--write)
    count
    cp $out/counts.txt $table
    cat $table
    ;;
*)
    sed -n '2,9s/^# \{0,1\}//p' "$0" >&2
    exit 2
    ;;
esac
