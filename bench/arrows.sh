#!/bin/sh
# Times the built `scheme_ls arrows` on texts of doubling length, and prints for each its status, the seconds of the fastest
# run beyond those of the empty text, and the ratio to the text before. Where the time is linear in the text, no ratio is
# much above 2. Run it by hand: bench/arrows.sh [RUNS], with 7 runs of each text unless RUNS says otherwise.

top=$(cd "$(dirname "$0")/.." && pwd) || exit 1
program=$top/crates/scheme_ls/out/scheme_ls
runs=${1:-7}

if [ ! -x "$program" ]; then
    echo "bench/arrows.sh: $program is missing: run bin/scheme_ls first" >&2
    exit 1
fi

text=$(mktemp) || exit 1
trap 'rm -f "$text"' EXIT

# A long program of definitions, each of another name, of at most $1 bytes.
flat() {
    awk -v limit="$1" '
        function letters(n) { return (n < 26 ? "" : letters(int(n / 26))) substr("abcdefghijklmnopqrstuvwxyz", n % 26 + 1, 1) }
        BEGIN {
            for (n = 0; ; n++) {
                name = "f-" letters(n)
                form = "(define (" name " x) (lambda (y) (" name " x y)))"
                size += length(form) + 1
                if (size > limit) exit
                print form
            }
        }'
}

# A program of forms with 100 open lists each, of at most $1 bytes.
deep() {
    awk -v limit="$1" '
        BEGIN {
            form = "x"
            for (n = 0; n < 50; n++) form = "(lambda (x) (x " form "))"
            for (size = length(form) + 1; size <= limit; size += length(form) + 1) print form
        }'
}

# The seconds of the fastest run on the text.
seconds() {
    count=0
    while [ "$count" -lt "$runs" ]; do
        start=$(date +%s.%N)
        "$program" arrows <"$text" >/dev/null
        end=$(date +%s.%N)
        echo "$start $end"
        count=$((count + 1))
    done | awk '{ run = $2 - $1; if (NR == 1 || run < least) least = run } END { printf "%.6f", least }'
}

# Times a kind of text at $3 lengths, from $2 bytes on.
measure() {
    kind=$1
    bytes=$2
    before=0
    for _ in $(seq "$3"); do
        "$kind" "$bytes" >"$text"
        "$program" arrows <"$text" >/dev/null
        status=$?
        now=$(echo "$(seconds) $base" | awk '{ printf "%.6f", ($1 > $2 ? $1 - $2 : 0) }')
        ratio=$(echo "$before $now" | awk '{ if ($1 > 0) printf "%.2f", $2 / $1; else printf "-" }')
        printf '%-6s %8d bytes   status %d   %s seconds   ratio %s\n' "$kind" "$(wc -c <"$text")" "$status" "$now" "$ratio"
        before=$now
        bytes=$((bytes * 2))
    done
}

: >"$text"
base=$(seconds)
echo "The empty text: $base seconds"
echo "Texts up to the limit, whose arrows are printed:"
measure flat 131072 4
measure deep 131072 4
echo "A text beyond it, which is refused:"
measure flat 2097152 1
