#!/bin/sh
# Builds and runs both examples, and compares what they print. Beforehand, in crates/canon_text_c: rt lib
set -eu
here=$(cd "$(dirname "$0")" && pwd)
lib=${CANON_TEXT_LIB:-$here/../crates/canon_text_c/out}
[ -f "$lib/libcanon_text_c.a" ] || { echo "missing: $lib/libcanon_text_c.a (first: cd crates/canon_text_c && rt lib)" >&2; exit 1; }
for it in "${CC:-cc}" cargo; do
    command -v "$it" > /dev/null || { echo "missing: $it" >&2; exit 1; }
done
made=$(mktemp -d)
trap 'rm -rf "$made"' EXIT

"${CC:-cc}" -std=c99 -Wall -Wextra -Werror -O2 -I "$here" -o "$made/convert" \
    "$here/examples/convert.c" "$lib/libcanon_text_c.a"
"$made/convert" > "$made/c"
cmp "$here/examples/expected" "$made/c"
echo "C: as expected"

CANON_TEXT_LIB=$lib CARGO_TARGET_DIR=$made/target cargo run --quiet --offline \
    --manifest-path "$here/rust/Cargo.toml" --example convert > "$made/rust"
cmp "$here/examples/expected" "$made/rust"
echo "Rust: as expected"
