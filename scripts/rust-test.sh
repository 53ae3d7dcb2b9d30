#!/bin/sh
# Tests the Rust wrapper against the archive: by cargo on x86-64, elsewhere by Debian's own rustc with the
# standard library of its amd64 packages, linked by the cross compiler and run in the emulator.
set -eu
cd "$(dirname "$0")/.."
x86=$PWD/scripts/x86.sh target=x86_64-unknown-linux-gnu

HIFROSTUM_LIB_DIR=$(cd "$($x86 lib)" && pwd)
CARGO_TARGET_DIR=$PWD/target/rust
export HIFROSTUM_LIB_DIR CARGO_TARGET_DIR

if $x86 native; then
    cd bindings/rust
    exec cargo test --offline --quiet
fi

if [ ! -d /usr/lib/rustlib/$target ] || [ ! -x /usr/bin/rustc ] || [ ! -x /usr/bin/cargo ]; then
    echo "rust: installing Debian's rustc and libstd-rust-dev:amd64"
    dpkg --add-architecture amd64
    apt-get -qq update
    DEBIAN_FRONTEND=noninteractive apt-get -qq install -y --no-install-recommends rustc cargo libstd-rust-dev:amd64 >/dev/null
fi

# cargo calls one program each as linker and as runner
mkdir -p "$CARGO_TARGET_DIR"
printf '#!/bin/sh\nexec "%s" cc "$@"\n' "$x86" >"$CARGO_TARGET_DIR/linker"
chmod +x "$CARGO_TARGET_DIR/linker"
export RUSTC=/usr/bin/rustc RUSTDOC=/usr/bin/rustdoc
export CARGO_TARGET_X86_64_UNKNOWN_LINUX_GNU_LINKER="$CARGO_TARGET_DIR/linker"
export CARGO_TARGET_X86_64_UNKNOWN_LINUX_GNU_RUNNER="$x86 run"
cd bindings/rust
exec /usr/bin/cargo test --offline --quiet --target $target
