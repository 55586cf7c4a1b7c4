#!/bin/sh
# instructions.sh [ATOMS [SIDE ..]]: machine instructions a unit of each line of the bench, by callgrind: the difference of two runs with other --rounds, so
# that what is made once does not count. It wants valgrind, and the bench as `cargo build --release` makes it. Other work beside it does no harm.
set -e
cd "$(dirname "$0")"
atoms=${1:-4000}
[ $# -lt 1 ] || shift
[ $# -gt 0 ] || set -- original library limit
bench=target/release/bench
work=$(mktemp -d)
trap 'rm -rf "$work"' EXIT

# count SIDE ROUNDS LINE: instructions of the whole program
count() {
    valgrind --tool=callgrind --callgrind-out-file="$work/out" "$bench" --limit --n "$atoms" --line "$3" --side "$1" --rounds "$2" >"$work/say" 2>"$work/log"
    sed -n 's/^.*I *refs: *//p' "$work/log" | tr -d ,
}

"$bench" --lines | while IFS= read -r line; do
    said="| $line"
    for side in "$@"; do
        few=$(count "$side" 1 "$line")
        units=$(awk -F' *[|] *' -v l="$line" '$2 == l { print $6 }' "$work/say")
        if [ -z "$units" ]; then said="$said | "; continue; fi
        more=$(count "$side" 4 "$line")
        said="$said | $(awk -v a="$few" -v b="$more" -v u="$units" 'BEGIN { printf "%.1f", (b - a) / 3 / u }')"
    done
    echo "$said |"
done
