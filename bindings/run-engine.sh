#!/bin/sh
# Builds guest.c's module and every program that calls it through the library, runs them, and compares what they print. Beforehand, in
# crates/canon_c: rt lib. CANON_LIB names another folder with libcanon_c.a, and CANON_HEAP the kit's liblibc_c.a.
set -eu
here=$(cd "$(dirname "$0")" && pwd)
lib=${CANON_LIB:-$here/../crates/canon_c/out}
missing=
needs() { command -v "$1" > /dev/null || missing="$missing $2"; }
needs clang clang
needs wasm-ld lld
needs wasm2c wabt
needs objcopy binutils
needs gcc gcc
needs g++ g++
[ -z "$missing" ] || { echo "missing: apt-get install$missing" >&2; exit 1; }
[ "$(wasm2c --version)" = 1.0.32 ] || echo "native.c is for the C that wasm2c 1.0.32 makes; this is $(wasm2c --version)" >&2
heap=${CANON_HEAP:-$(dirname "$(rt doc)")/c/liblibc_c.a}
for it in "$lib/libcanon_c.a" "$heap"; do
    [ -f "$it" ] || { echo "missing: $it (rt lib in crates/canon_c makes libcanon_c.a, the kit has liblibc_c.a)" >&2; exit 1; }
done

made=${CANON_MADE:-$(mktemp -d)}
mkdir -p "$made"
[ -n "${CANON_MADE:-}" ] || trap 'rm -rf "$made"' EXIT
cd "$here/engine"

# The module, and the C that wasm2c makes of it: each access to memory is tested.
clang --target=wasm32 -nostdlib -O2 -Wall -Wextra -Wno-unused-parameter -Wl,--no-entry -Wl,--initial-memory=131072 \
    -Wl,--max-memory=16777216 -o "$made/guest.wasm" guest.c
wasm2c "$made/guest.wasm" -o "$made/guest_wasm.c"
export GUEST_WASM="$made/guest.wasm"

# The library's read and write get the names of what the bindings answer them by.
renamed() { objcopy --redefine-sym "read=$1_read" --redefine-sym "write=$1_write" "$lib/libcanon_c.a" "$made/lib$1.a"; }
renamed canon_channel
renamed hostile

# build FOLDER FLAGS: all programs, into a folder of their own.
build() {
    to=$made/$1
    mkdir -p "$to"
    flags="-O2 -g -DWASM_RT_MEMCHECK_SIGNAL_HANDLER=0 -I$made $2"
    strict="-std=c11 -Wall -Wextra -Werror"
    for it in canon native first demo session threads hostile time; do
        gcc $strict $flags -c $it.c -o "$to/$it.o"
    done
    gcc -std=c99 -pedantic -Wall -Wextra -Werror -fsyntax-only first.c
    gcc $strict $flags -Dcanon_serve=piped_serve -c canon.c -o "$to/canon_piped.o"
    gcc $strict $flags -c piped.c -o "$to/piped.o"
    gcc -w $flags -c "$made/guest_wasm.c" -o "$to/guest_wasm.o"
    g++ -std=c++17 -Wall -Wextra $flags -c interp.cc -o "$to/interp.o"
    native="$to/native.o $to/guest_wasm.o"
    gcc $flags -o "$to/first" "$to/first.o" "$to/canon.o" $native "$made/libcanon_channel.a" "$heap"
    gcc $flags -o "$to/demo" "$to/demo.o" "$to/canon.o" $native "$made/libcanon_channel.a" "$heap"
    gcc $flags -o "$to/session" "$to/session.o" "$to/canon.o" $native "$made/libcanon_channel.a" "$heap"
    gcc $flags -o "$to/threads_run" "$to/threads.o" "$to/canon.o" "$made/libcanon_channel.a" "$heap" -pthread
    gcc $flags -o "$to/hostile_run" "$to/hostile.o" "$to/canon.o" "$made/libhostile.a" "$heap"
    gcc $flags -o "$to/piped_run" "$to/demo.o" "$to/canon_piped.o" "$to/piped.o" $native "$lib/libcanon_c.a" "$heap" -pthread
    g++ $flags -o "$to/demo_interp" "$to/demo.o" "$to/canon.o" "$to/interp.o" "$made/libcanon_channel.a" "$heap" -lwabt
    gcc $flags -o "$to/time_run" "$to/time.o" "$to/canon.o" $native "$made/libcanon_channel.a" "$heap"
}

# says NAME FILE COMMAND..: runs a command, whose output has to be the file.
says() {
    name=$1 wanted=$2
    shift 2
    "$@" > "$made/out" 2> "$made/err" || { echo "$name: ended by status $?" >&2; cat "$made/err" >&2; exit 1; }
    cmp "$wanted" "$made/out" || { diff "$wanted" "$made/out" >&2; exit 1; }
    echo "$name: as expected"
}

programs() {
    says "$1, a first call" first.expected "$made/$1/first"
    says "$1, native" expected "$made/$1/demo"
    says "$1, wabt's interpreter" expected "$made/$1/demo_interp"
    says "$1, the library over descriptors, in a thread" expected env CANON_PIPED=thread "$made/$1/piped_run"
    says "$1, the library over descriptors, in a process" expected env CANON_PIPED=process "$made/$1/piped_run"
    says "$1, a session without a stack of its own" session.expected "$made/$1/session"
    says "$1, several threads" threads.expected "$made/$1/threads_run"
    says "$1, lies" hostile.expected "$made/$1/hostile_run"
}

build plain ""
programs plain
build sanitized "-fsanitize=address,undefined -fno-sanitize-recover=undefined"
programs sanitized

command -v cargo > /dev/null || { echo "no cargo: Rust was left out"; exit 0; }
cargo_run() {
    CANON_LIB=$lib CANON_HEAP=$heap CANON_GUEST=$made CARGO_TARGET_DIR=$made/target cargo "$@" --quiet --offline --manifest-path "$here/rust/canon/Cargo.toml"
}
cargo_run test > "$made/out" 2>&1 || { cat "$made/out" >&2; exit 1; }
echo "Rust, tests: passed"
cargo_run build --release --features guest --examples
says "Rust, an engine in C" "$here/rust/canon/examples/expected" "$made/target/release/examples/demo"
