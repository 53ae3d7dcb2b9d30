#!/bin/sh
# Measures the library beside C that a user would take instead, and prints tables in markdown.
#
# On any machine: the instructions of each call, counted in the trace of qemu-x86_64 running one instruction at a time,
# and cycles that llvm-mca estimates. On x86-64 also times. The library is what the kit's LLVM makes of it. Plain C
# (ways.c) is compiled with -O2, and C that makes the library's own tests (same.c, gather.c for fragments, and build.c
# for packets built) with -O3, by the machine's C compiler and by clang where there is one.
#
#   BEFORE=DIR/libhifrostum.a BEFORE_COMMIT=NAME bench/run.sh
#
# also counts the library as it is in that archive, in a column of its own, and says which commit it is of: run
# `scripts/x86.sh lib` in a clone at that commit, and keep the archive.
set -eu
cd "$(dirname "$0")/.."
x86=scripts/x86.sh out=target/bench flags='-std=c11 -Wall -Wextra -Iinclude'

if ! command -v qemu-x86_64 >/dev/null; then
    echo "bench: instructions are counted by qemu-x86_64: install Debian's qemu-user" >&2
    exit 1
fi
archive=$($x86 lib)/libhifrostum.a
mkdir -p $out

# static, so that a trace has no loader in it and every function has its name
objects='' compilers=cc
! $x86 has clang || compilers='cc clang'
# shellcheck disable=SC2086
{
    for by in $compilers; do
        $x86 "$by" -O2 $flags -DBY="plain_$by" -c bench/ways.c -o "$out/plain-$by.o"
        objects="$objects $out/plain-$by.o"
        for way in once:ONCE:PLAIN copies:COPIES:PLAIN adc:COPIES:CHAINS sse2:COPIES:VECTORS; do
            name=${way%%:*} kind=${way##*:} shape=${way#*:}
            $x86 "$by" -O3 $flags -DBY="${name}_$by" -DSHAPE="${shape%:*}" -DKIND="$kind" -c bench/same.c \
                -o "$out/$name-$by.o"
            objects="$objects $out/$name-$by.o"
        done
        for way in copied:1:PLAIN placed:0:PLAIN placed_adc:0:CHAINS placed_sse2:0:VECTORS; do
            name=${way%%:*} kind=${way##*:} copied=${way#*:}
            $x86 "$by" -O3 $flags -DBY="${name}_$by" -DCOPIED="${copied%:*}" -DKIND="$kind" -c bench/gather.c \
                -o "$out/$name-$by.o"
            objects="$objects $out/$name-$by.o"
        done
        for way in loop:1:PLAIN wide:0:PLAIN wide_adc:0:CHAINS wide_sse2:0:VECTORS; do
            name=${way%%:*} kind=${way##*:} loop=${way#*:}
            $x86 "$by" -O3 $flags -DBY="${name}_$by" -DLOOP="${loop%:*}" -DKIND="$kind" -c bench/build.c \
                -o "$out/$name-$by.o"
            objects="$objects $out/$name-$by.o"
        done
    done
    clang=
    [ "$compilers" = cc ] || clang=-DCLANG
    $x86 cc -O2 $flags $clang -static bench/bench.c bench/differ.c bench/lists.c bench/asks.c $objects "$archive" \
        -o $out/bench
}

# Prints a table of the lines on standard input; table.awk says what KIND is.
table() { # KIND COLUMNS
    awk -F ' *[|] *' -v kind="$1" -v columns="$2" -f bench/table.awk
}

# Lines about lists of fragments, about packets built, or about all else.
about() { # lists|built|packets
    case $1 in
    lists) grep '^judge fragments |' ;;
    built) grep '^build |' ;;
    packets) grep -v -e '^judge fragments |' -e '^build |' ;;
    esac
}

# the columns' names
once='' copies='' copied='' placed='' loop='' wide=''
for by in $compilers; do
    once="$once;$by: once" copies="$copies;$by: copies" copied="$copied;$by: copied" placed="$placed;$by: in place"
    loop="$loop;$by: loop" wide="$wide;$by: 64-bit"
done
plain=';RFC 1071 loop;64-bit loop;DPDK shape;RFC 1624 or 6296 by hand' same="$once$copies;adc;SSE2"
gathered="$copied$placed;adc;SSE2" built="$loop$wide;adc;SSE2"

commit=$(git rev-parse --short HEAD 2>/dev/null) || commit=unknown
git diff --quiet HEAD -- crates crates.txt 2>/dev/null || commit="$commit, with changes"
echo "ours: commit $commit; $(rt version | cut -d ' ' -f 1)"
[ -z "${BEFORE:-}" ] || echo "before: commit ${BEFORE_COMMIT:-unknown}"
for by in $compilers; do
    echo "$by: $($x86 "$by" --version | head -n 1), -O2; -O3 where it makes the same tests"
done
[ "$compilers" != cc ] || echo "clang: none for x86-64 here"
$x86 run $out/bench same 200000

bench/count.sh $out/bench calls >$out/calls
before='' old=''
if [ -n "${BEFORE:-}" ]; then
    less=
    $x86 nm "$BEFORE" | grep -q ' T hifrostum_exchange_prefix$' || less=-DNO_PREFIX
    $x86 nm "$BEFORE" | grep -q ' T hifrostum_judge_fragments$' || less="$less -DNO_FRAGMENTS"
    $x86 nm "$BEFORE" | grep -q ' T hifrostum_build_udp$' || less="$less -DNO_BUILD"
    # shellcheck disable=SC2086
    $x86 cc -O2 $flags $less -DONLY_OURS -static bench/bench.c "$BEFORE" -o $out/bench-before
    bench/count.sh $out/bench-before calls >$out/before
    sed 's/| ours |/| before |/' $out/before >>$out/calls
    before=';before' old=$out/bench-before
fi

echo
echo "Instructions for each call (counted by $(qemu-x86_64 --version | sed -n '1s/ (.*//p'))."
echo
echo "Beside C that serves UDP alone and tests less, by the better of both compilers:"
echo
table plain "ours$before$plain" <$out/calls
echo
echo "Beside C that makes the same tests in the same order, for all protocols and families, everything inlined. Its"
echo "work stands once for all of them, as ours does, or in copies for each. The copies' sums are C too; or chains of"
echo "add-with-carry (adc), which are assembly; or SSE2 for long strings and chains for short ones, both by the better"
echo "compiler. 'C' is the best without assembly, and 'best' the best of all:"
echo
about packets <$out/calls | table same "ours$before$same"
echo
echo "Fragments of one message, beside C that makes the same tests in the same order. It puts the message together in a"
echo "buffer and sums that (copied), or sums each piece in place; the last two columns do so with the sums named there:"
echo
about lists <$out/calls | table gathered "ours$gathered"
echo
echo "Packets built, beside C that makes the same tests in the same order and copies the body by memcpy. It stores"
echo "fields byte by byte and sums in RFC 1071's loop (loop), or stores eight bytes at a time and sums in 64 bits; the"
echo "last two columns do so with the sums named there:"
echo
about built <$out/calls | table built "ours$built"

echo
echo "Instructions of three edits, by the packet's length:"
echo
bench/count.sh $out/bench lengths >$out/lengths
awk -F ' *[|] *' '
    {
        split($2, packet, " ")
        edit = $1 ", " packet[1]
        if (!(edit in row)) {
            edits[++count] = edit
            cost[edit] = $4
        }
        if (count == 1) {
            head = head " " packet[2] " |"
            rule = rule "---|"
        }
        row[edit] = row[edit] " " $4 " |"
        grows = grows || $4 != cost[edit]
    }
    END {
        print "| edit |" head "\n|---|" rule
        for (i = 1; i <= count; i++)
            print "| " edits[i] " |" row[edits[i]]
        exit grows
    }' $out/lengths || {
    echo "bench: an edit's cost grows with the packet" >&2
    exit 1
}

echo
# shellcheck disable=SC2086
bench/cycles.sh "ours$before$same" $out/bench $old

echo
if $x86 native; then
    $x86 run $out/bench times >$out/times
    echo "Nanoseconds for each call (best of 3,000 batches, of 150 for longer messages, in turns;"
    echo "$(sed -n 's/^model name[^:]*: *//p' /proc/cpuinfo | head -n 1)):"
    echo
    table plain "ours$plain" <$out/times
    echo
    about packets <$out/times | table same "ours$same"
    echo
    about lists <$out/times | table gathered "ours$gathered"
    echo
    about built <$out/times | table built "ours$built"
else
    echo "Times are measured on x86-64 alone; this machine is $(uname -m)."
fi
