#!/bin/sh
# The one place that knows how C becomes an x86-64 program here, and how such a program runs.
#
#   x86.sh cc WORDS..       compiles C for x86-64          (x86.sh c++ WORDS..: C++; x86.sh clang WORDS..: C by clang)
#   x86.sh nm WORDS..       lists the names of an x86-64 file
#   x86.sh run PROGRAM ..   runs an x86-64 program
#   x86.sh has WHAT         exit status 0 if that is at hand: cc, c++, clang or run
#   x86.sh name             prints the name of the C compiler
#   x86.sh native           exit status 0 on an x86-64 machine
#   x86.sh lib              makes the archive anew unless it was made of these crates by this kit, and prints its folder
#   x86.sh program NAME     proves and builds the program of a crate, if that changed, and prints where it is
#
# On x86-64 these are the machine's own compiler and nothing, elsewhere Debian's cross compiler and its
# emulator. HIFROSTUM_LIB_DIR names a folder with another libhifrostum.a, which is then never made.
set -eu

# the cross compiler's own loader and C library, and no other that is installed beside them
home=/usr/x86_64-linux-gnu
if [ "$(uname -m)" = x86_64 ]; then
    native=yes cc=${CC:-cc} cxx=${CXX:-c++} clang=clang nm=nm emulator=
else
    native=no cc=x86_64-linux-gnu-gcc cxx=x86_64-linux-gnu-g++ nm=x86_64-linux-gnu-nm
    clang='clang --target=x86_64-linux-gnu' emulator="qemu-x86_64 -L $home -E LD_LIBRARY_PATH=$home/lib"
fi

# Compiles an empty program: a compiler without the C library's files is of no use.
compiles() { # LANGUAGE COMPILER..
    language=$1 made=$(mktemp)
    shift
    printf '#include <stdio.h>\nint main(void) { return 0; }\n' |
        "$@" -x "$language" - -o "$made" 2>/dev/null && status=0 || status=1
    rm -f "$made"
    return "$status"
}

# What the archive is made of, by content: times of files say too little after a checkout or a removal. A crate's out/ is
# rt's own, and has sources too.
made_of() { # ARCHIVE
    {
        rt version
        find crates.txt crates/*/src crates/*/specs crates/*/proofs -type f | LC_ALL=C sort | xargs cksum
        cksum <"$1"
    } | cksum
}

archive() {
    cd "$(dirname "$0")/.."
    dir=${HIFROSTUM_LIB_DIR:-$PWD/target/staticlib}
    if [ -z "${HIFROSTUM_LIB_DIR:-}" ]; then
        file=$dir/libhifrostum.a
        if [ ! -f "$file" ] || [ ! -f "$dir/made-of" ] || [ "$(made_of "$file")" != "$(cat "$dir/made-of")" ]; then
            (cd crates/hifrostum_c && rt lib) >&2
            mkdir -p "$dir"
            cp crates/hifrostum_c/out/libhifrostum_c.a "$file"
            made_of "$file" >"$dir/made-of"
        fi
    fi
    echo "$dir"
}

# rt builds a program only to run it: here once, on no input, which changes nothing. It is copied to a new file, so that
# nobody who runs it meanwhile is in the way.
program() { # NAME
    cd "$(dirname "$0")/.."
    (cd "crates/$1" && rt run </dev/null >/dev/null)
    file=$PWD/target/bin/$1
    if ! cmp -s "crates/$1/out/$1" "$file"; then
        mkdir -p target/bin
        cp "crates/$1/out/$1" "$file.$$"
        mv -f "$file.$$" "$file"
    fi
    echo "$file"
}

what=${1:-}
[ $# -eq 0 ] || shift
# a compiler and the emulator may be several words
# shellcheck disable=SC2086
case $what in
cc) exec $cc "$@" ;;
c++) exec $cxx "$@" ;;
clang) exec $clang "$@" ;;
nm) exec $nm "$@" ;;
run) exec $emulator "$@" ;;
name) echo "$cc" ;;
native) [ $native = yes ] ;;
lib) archive ;;
program) program "$@" ;;
has)
    case ${1:-} in
    cc) compiles c $cc ;;
    c++) compiles c++ $cxx ;;
    clang) compiles c $clang ;;
    run) [ $native = yes ] || { command -v qemu-x86_64 >/dev/null && [ -e $home/lib/libc.so.6 ]; } ;;
    *) exit 2 ;;
    esac
    ;;
*)
    sed -n '2,15s/^# \{0,1\}//p' "$0" >&2
    exit 2
    ;;
esac
