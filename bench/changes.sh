#!/bin/sh
# Times the built `scheme_ls serve` on a session that opens a document of 64 KiB and makes small changes to it, spread over its
# lines: the seconds of 125 to 1,000 changes, behind each of which its diagnostics are written, and the ratio to the line before.
# Where a change costs the same however many came before, no ratio is much above 2. Run it by hand: bench/changes.sh [CHANGES of the
# first line]

top=$(cd "$(dirname "$0")/.." && pwd) || exit 1
program=$top/crates/scheme_ls/out/scheme_ls
first=${1:-125}

if [ ! -x "$program" ]; then
    echo "bench/changes.sh: $program is missing: run bin/scheme_ls first" >&2
    exit 1
fi

stream=$(mktemp) || exit 1
trap 'rm -f "$stream"' EXIT

# A session with so many changes: each puts a digit more into the numeral of a line.
session() {
    awk -v changes="$1" '
        function frame(body) { printf "Content-Length: %d\r\n\r\n%s", length(body), body }
        BEGIN {
            for (lines = 0; lines < 2250; lines++) text = text sprintf("(define (f-%05d x) (* x 1))\\n", lines)
            frame("{\"jsonrpc\":\"2.0\",\"id\":1,\"method\":\"initialize\",\"params\":{}}")
            frame("{\"jsonrpc\":\"2.0\",\"method\":\"textDocument/didOpen\",\"params\":{\"textDocument\":{\"uri\":\"file:///a.scm\",\"version\":0,\"text\":\"" text "\"}}}")
            for (n = 1; n <= changes; n++) {
                at = (n * 7919) % lines
                frame("{\"jsonrpc\":\"2.0\",\"method\":\"textDocument/didChange\",\"params\":{\"textDocument\":{\"uri\":\"file:///a.scm\",\"version\":" n "},\"contentChanges\":[{\"range\":{\"start\":{\"line\":" at ",\"character\":25},\"end\":{\"line\":" at ",\"character\":25}},\"text\":\"2\"}]}}")
            }
            frame("{\"jsonrpc\":\"2.0\",\"method\":\"exit\"}")
        }'
}

before=0
for _ in 1 2 3 4; do
    session "$first" >"$stream"
    start=$(date +%s.%N)
    "$program" serve <"$stream" >/dev/null
    status=$?
    end=$(date +%s.%N)
    now=$(echo "$start $end" | awk '{ printf "%.3f", $2 - $1 }')
    ratio=$(echo "$before $now" | awk '{ if ($1 > 0) printf "%.2f", $2 / $1; else printf "-" }')
    printf '%6d changes   %9d bytes   status %d   %s seconds   ratio %s\n' "$first" "$(wc -c <"$stream")" "$status" "$now" "$ratio"
    before=$now
    first=$((first * 2))
done
