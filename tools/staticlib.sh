#!/usr/bin/env bash
# Makes the static library that C and Rust link: target/staticlib/libexports.a, proved and built by crates/exports_c.
set -euo pipefail
cd "$(dirname "$0")/.."
mkdir -p target/staticlib
(cd crates/exports_c && rt lib)
cp crates/exports_c/out/libexports_c.a target/staticlib/libexports.a
