#!/bin/sh
# Installs what is missing of what the C part of the gate needs: on x86-64 a C compiler, elsewhere Debian's cross
# compiler and emulator. Exit status 1, and one line, if that can't be had here.
#
#   setup.sh        the whole C part; HIFROSTUM_SKIP_C=1 leaves it out, and says so
#   setup.sh run    only what runs an x86-64 program: nothing on x86-64, the emulator elsewhere
set -eu
x86=$(dirname "$0")/x86.sh
what=${1:-all}

if [ "$what" = run ]; then
    part='the emulator' skip=
    ready() { "$x86" has run; }
    whole() { ready; }
else
    part='the C part' skip=', or set HIFROSTUM_SKIP_C=1 to leave it out'
    ready() { "$x86" has cc && "$x86" has run; }
    whole() { ready && "$x86" has c++; }
    if [ "${HIFROSTUM_SKIP_C:-}" = 1 ]; then
        echo "setup: HIFROSTUM_SKIP_C=1, so the C part is left out: no C program is built or run"
        exit 0
    fi
fi
if whole; then
    [ "$what" = run ] || echo "setup: the C part has all it needs"
    exit 0
fi

if "$x86" native; then
    need='gcc g++ libc6-dev'
elif [ "$what" = run ]; then
    need='qemu-user libc6-amd64-cross'
else
    need='gcc-x86-64-linux-gnu g++-x86-64-linux-gnu libc6-dev-amd64-cross qemu-user'
fi
if [ "$(id -u)" = 0 ] && command -v apt-get >/dev/null; then
    log=$(mktemp)
    wait='-o DPkg::Lock::Timeout=300'
    # shellcheck disable=SC2086
    {
        apt-get $wait update &&
            DEBIAN_FRONTEND=noninteractive apt-get $wait install -y --no-install-recommends $need
    } >"$log" 2>&1 || tail -n 3 "$log" >&2
    rm -f "$log"
fi
if ready; then
    echo "setup: $part is there now"
else
    echo "setup: $part can't be had here: install $need$skip" >&2
    exit 1
fi
