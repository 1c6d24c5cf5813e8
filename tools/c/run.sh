#!/usr/bin/env bash
# Builds the static library and the C program over include/rename.h, runs the program and compares what it prints.
set -euo pipefail
cd "$(dirname "$0")/../.."
out=target/c
mkdir -p "$out"
bash tools/staticlib.sh >"$out/staticlib.log" 2>&1 || { tail -20 "$out/staticlib.log"; exit 1; }
# CFLAGS is split into words on purpose
# shellcheck disable=SC2086
gcc -std=c11 -Wall -Wextra -Werror ${CFLAGS:-} -I include tools/c/example.c target/staticlib/libexports.a -o "$out/example"
"$out/example" >"$out/printed" || { cat "$out/printed"; exit 1; }
diff tools/c/expected "$out/printed"
echo "tools/c: as expected"
