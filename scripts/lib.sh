#!/bin/sh
# Makes the archive for C, and says how a host is compiled with it on this machine.
set -eu
cd "$(dirname "$0")/.."
x86=scripts/x86.sh
archive=$($x86 lib)/libhifrostum.a
archive=${archive#"$PWD/"}

echo "$archive is there, for x86-64 Linux (ELF). A host is made by"
echo "    $($x86 name) -Iinclude host.c $archive"
if ! $x86 native; then
    echo "and run here by"
    echo "    scripts/x86.sh run ./a.out"
fi
$x86 has cc || echo "The compiler isn't there yet: scripts/setup.sh installs it."
