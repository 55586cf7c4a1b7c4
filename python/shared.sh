#!/bin/sh
# shared.sh [OUT]: libtyngyrlak.so, for Python, of libfield.a; without OUT in python/tyngyrlak/, where the package looks for it.
# On x86-64 that is the archive that `rt lib` writes in crates/field (crates/field/out, or the folder that TYNGYRLAK_LIB_DIR names). Elsewhere the archive cannot be
# linked, and the kit makes no other: there TYNGYRLAK_LIB_DIR must name a folder with a libfield.a for that machine, which is for trying and measuring alone.
# The library says of itself what it was made of: `python -m tyngyrlak` prints it.
set -e
here=$(cd "$(dirname "$0")" && pwd)
out=${1:-$here/tyngyrlak/libtyngyrlak.so}
machine=$(uname -m)
if [ "$machine" = x86_64 ]; then
    from=${TYNGYRLAK_LIB_DIR:-$here/../crates/field/out}
    made="proved: the archive of rt lib in crates/field, x86-64"
else
    [ -n "$TYNGYRLAK_LIB_DIR" ] || { echo "shared.sh: this is $machine, and the kit makes libfield.a for x86-64 alone; TYNGYRLAK_LIB_DIR may name the folder of another" >&2; exit 1; }
    from=$TYNGYRLAK_LIB_DIR
    made="a libfield.a for $machine, for trying and measuring alone: what is proved and shipped is x86-64"
fi
[ -f "$from/libfield.a" ] || { echo "shared.sh: there is no $from/libfield.a: \`rt lib\` in crates/field makes it, or TYNGYRLAK_LIB_DIR names its folder" >&2; exit 1; }
# nothing half made: the linker writes beside, then it is moved
printf 'const char tyngyrlak_made[] = "%s";\n' "$made" |
    gcc -shared -fPIC -O2 -o "$out.part" -x c - -x none -Wl,--whole-archive "$from/libfield.a" -Wl,--no-whole-archive -Wl,-z,defs -lm
mv "$out.part" "$out"
echo "$out: $made"
