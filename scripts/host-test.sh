#!/bin/sh
# Builds and runs what links the archive: the host test, the same over a shared object and from C++, updates and sums
# beside the second implementation's, corners, lengths over 2^32, the hut, and the status packet; looks at the archive's
# names; and tries the program and the script that runs it.
# HIFROSTUM_SKIP_C=1 leaves all of it out. JUDGE_CAPTURE names another program than target/bin/judge_capture.
set -eu
cd "$(dirname "$0")/.."
x86=scripts/x86.sh out=target/c flags='-O2 -std=c11 -Wall -Wextra -Wpedantic -Werror -Iinclude -Itarget/c'

if [ "${HIFROSTUM_SKIP_C:-}" = 1 ]; then
    echo "host: HIFROSTUM_SKIP_C=1, so no C program is built or run"
    exit 0
fi

fail() {
    echo "host: failed: $*" >&2
    exit 1
}

archive=$($x86 lib)/libhifrostum.a
judge_capture=${JUDGE_CAPTURE:-$($x86 program judge_capture)}
mkdir -p $out

# The changes' newest entry is about the header's version.
version=$(sed -n 's/^#define HIFROSTUM_SURFACE_VERSION //p' include/hifrostum.h)
[ "$version" = "$(sed -n 's/^## //p' CHANGELOG.md | head -n 1)" ] ||
    fail "the surface's version is '$version', and the first entry of CHANGELOG.md is another"

# The archive defines for others what the header declares, and asks others for nothing. So no name of it can clash with
# a host's, and it links whole into a shared object, with no text that the loader would have to change.
sed -n 's/^[a-z].* \(hifrostum_[a-z_]*\)(.*/\1/p' include/hifrostum.h | LC_ALL=C sort >$out/declared
$x86 nm -g --defined-only "$archive" | awk 'NF == 3 { print $3 }' | LC_ALL=C sort >$out/defined
$x86 nm -u "$archive" | awk 'NF == 2' >$out/wanted
cmp $out/declared $out/defined || fail "the archive's names (in $out/defined) aren't the header's"
[ ! -s $out/wanted ] || fail "the archive asks for $(cat $out/wanted)"
echo "host: the archive defines the $(wc -l <$out/defined) functions of the header and no other name, and needs none"

# the README's example and the header's compile as they stand there
# shellcheck disable=SC2016
sed -n '/^```c$/,/^```$/{/^```/!p}' README.md >$out/readme.c
sed -n '/^ \*     static uint16_t fold_at/,/^ \* A UDP/s/^ \*     //p' include/hifrostum.h >$out/example.h
# shellcheck disable=SC2086
{
    $x86 cc $flags tests/host/host.c "$archive" -o $out/host
    $x86 cc $flags tests/host/lengths.c "$archive" -o $out/lengths
    $x86 cc $flags tests/host/updates.c "$archive" -o $out/updates
    $x86 cc $flags tests/host/blocks.c "$archive" -o $out/blocks
    $x86 cc $flags tests/host/corners.c "$archive" -o $out/corners
    $x86 cc $flags examples/hut/hut.c "$archive" -o $out/hut
    $x86 cc $flags examples/status/status.c "$archive" -o $out/status
    $x86 cc $flags $out/readme.c "$archive" -o $out/readme
    $x86 cc -shared -Wl,-z,text,-z,defs,--whole-archive "$archive" -Wl,--no-whole-archive -o $out/libhifrostum.so
    $x86 cc $flags tests/host/host.c $out/libhifrostum.so -Wl,-rpath,"$PWD/$out" -o $out/host-shared
}
if $x86 has c++; then
    $x86 c++ -O2 -Wall -Wextra -Wpedantic -Werror -Iinclude tests/host/host.cc "$archive" -o $out/host-c++
    $x86 run $out/host-c++
else
    echo "host: not linked from C++, since there is no C++ compiler for x86-64 here"
fi
tests/host/program.sh "$judge_capture" crates/judge_capture/stdin
tests/host/wrapper.sh crates/judge_capture/stdin
tests/host/hut.sh $out/hut "$judge_capture"
tests/host/status.sh $out/status "$judge_capture" $out/hut
# a block and a chain of an odd length over 2^32, and a chain of 2^64, whose list has 2^32 pieces and more; in the
# emulator the block has a length over 2^28, and the chain of 2^64, which takes a minute there, is left out
if $x86 native; then
    $x86 run $out/lengths 4294967303 4294967303 1
else
    $x86 run $out/lengths 268435463 4294967303 0
fi
# the update by itself, beside the second implementation's; no record, a cut one or another answer must not pass
cargo build --release --offline --quiet --manifest-path tests/second/Cargo.toml --target-dir target/second
target/second/release/second updates 1 1000000 >$out/triples
: >$out/triples-none
head -c 1727 $out/triples >$out/triples-cut
printf '\377\377\377\377\000\000\377\377' >$out/triples-other
for wrong in none cut other; do
    if $x86 run $out/updates <$out/triples-$wrong >$out/said; then
        fail "records that are wrong pass ($wrong): $(cat $out/said)"
    fi
done
$x86 run $out/updates <$out/triples
# sums of every length at every address, beside the second implementation's; a cut block or another field must not pass
target/second/release/second blocks 1 >$out/strings
: >$out/strings-none
head -c 1727 $out/strings >$out/strings-cut
{ printf '\000\000\000\000\377\376' && tail -c +7 $out/strings; } >$out/strings-other
for wrong in none cut other; do
    if $x86 run $out/blocks <$out/strings-$wrong >$out/said; then
        fail "blocks that are wrong pass ($wrong): $(cat $out/said)"
    fi
done
$x86 run $out/blocks <$out/strings
$x86 run $out/corners >$out/said || fail "corners: $(cat $out/said)"
tail -n 1 $out/said
$x86 run $out/host-shared >$out/said || fail "from a shared object: $(cat $out/said)"
sed -n '$s/^host:/& from a shared object:/p' $out/said
$x86 run $out/host
