#!/bin/sh
# native.sh OUT: proves the library and puts libfield.a into the folder OUT, so that the bench can run: TYNGYRLAK_LIB_DIR=OUT FIELD_SRC=.. cargo run --release
# It runs on x86-64 alone. With an older kit it compiled the library's module for Arm too; this one runs on x86-64 and keeps no module.
set -e
[ $# -eq 1 ] || { echo "usage: native.sh OUT" >&2; exit 2; }
machine=$(uname -m)
[ "$machine" = x86_64 ] || { echo "native.sh: this is $machine, and the kit makes libfield.a for x86-64 alone" >&2; exit 1; }
here=$(cd "$(dirname "$0")" && pwd)
mkdir -p "$1"
out=$(cd "$1" && pwd)
log=$(mktemp)
trap 'rm -f "$log"' EXIT
cd "$here/../crates/field"
rt lib >"$log" 2>&1 || { tail -20 "$log" >&2; exit 1; }
cp out/libfield.a "$out/"
echo "$out/libfield.a"
