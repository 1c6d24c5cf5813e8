#!/usr/bin/env bash
# Times two releases of the static library in one run: that of a revision, and that of the working tree (both of today's Rattle). Each gets, beside the calls, a
# lookup that can be called by itself.
set -euo pipefail
cd "$(dirname "$0")/../.."
if [ $# -lt 1 ]; then
  echo "usage: tools/bench/before-after.sh REVISION [--seed S]" >&2
  exit 2
fi
revision=$1
shift
out=$PWD/target/before-after

# build SIDE: the static library of the crates that standard input holds as an archive, with the lookup
build() {
  mkdir -p "$out/$1"
  rm -rf "$out/$1/crates"
  tar -x -C "$out/$1"
  echo 'pub mod lookup;' >>"$out/$1/crates/exports_c/src/lib.rt"
  cat >"$out/$1/crates/exports_c/src/lookup.rt" <<'END'
// A name looked up in a map.
ghost use Rattle.names.specs.Maps.{NameMap, MapOf};

use names::bytes::number;
use names::map::lookup;

// The number that the first two bytes of what a map makes of a name stand for, or 0 where there are fewer.
#[unsafe(no_mangle)]
pub extern "C" fn rename_lookup<'a>(name: &'a [u8], map: &'a [u8]) -> usize
    requires { (m : NameMap) × MapOf map.now m }
{
    let r = lookup(name, map);
    if r.len() < 2 {
        return 0;
    }
    number(r, 0, 2)
}
END
  (cd "$out/$1" && bash tools/staticlib.sh) >"$out/$1.log" 2>&1 || { tail -20 "$out/$1.log"; exit 1; }
}

git archive "$revision" crates crates.txt tools/staticlib.sh | build before
tar -c --exclude=out crates crates.txt tools/staticlib.sh | build after

# the functions of the first under other names
nm -g --defined-only "$out/before/target/staticlib/libexports.a" | awk '$2 == "T" { print $3, "before_" $3 }' >"$out/names"
objcopy --redefine-syms="$out/names" "$out/before/target/staticlib/libexports.a" "$out/libbefore.a"

export RENAME_LIB_BEFORE=$out/libbefore.a RENAME_LIB=$out/after/target/staticlib/libexports.a
cargo run --quiet --release --offline --manifest-path tools/bench/Cargo.toml --target-dir "$out/bench" -- before-after "$@"
