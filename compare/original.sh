#!/bin/sh
# Makes target/original, which git ignores: a package around the original's
# files, as they lie there now. No links: `rt ci` refuses any in the checkout.
set -eu

root=$(cd "$(dirname "$0")/.." && pwd)
source=${CATCARD_SRC:-$root/../shared/docs/src}

if [ ! -f "$source/lib.rs" ] || [ ! -f "$source/tag.rs" ]; then
    echo "The original is not there: fetch repository TibaneLabs/catcard at commit 038c37cac7 and put its folder crates/catcard-nfc/src beside this repository as ../shared/docs/src, or name the folder in CATCARD_SRC." >&2
    exit 3
fi
source=$(cd "$source" && pwd)

package=$root/target/original
mkdir -p "$package/src"
# Not touched when they are the same, or cargo would build anew each time.
for f in lib.rs tag.rs; do
    cmp -s "$source/$f" "$package/src/$f" || cp -f "$source/$f" "$package/src/$f"
done
# Left out of the port (document 01, "What is ported"); lib.rs only names it.
if [ ! -f "$package/src/pushtx.rs" ] || [ -s "$package/src/pushtx.rs" ]; then
    : >"$package/src/pushtx.rs"
fi

cat >"$package/Cargo.toml" <<'END'
[package]
name = "catcard-nfc"
version = "0.0.0"
edition = "2021"
publish = false

[lib]
path = "src/lib.rs"

[features]
std = []

[dependencies]
zeroize = { path = "../../compare/zeroize" }

# A package of its own, no member of a workspace further up.
[workspace]
END
