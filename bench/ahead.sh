#!/usr/bin/env bash
# Counts the instructions that `scheme_ls serve` and `scheme_ls serve --ahead` take for pieces of 64 KiB with the smallest bodies (one byte
# each, so frames of 22 bytes), for small notifications, and for small requests that are each cancelled by the next message. The counts
# are those of one piece: of a stream of 5 pieces without those of a stream of one, divided by 4. Run it by hand, outside the gate:
# bench/ahead.sh [PROGRAM], where PROGRAM is crates/scheme_ls/out/scheme_ls unless told. It needs valgrind.
set -euo pipefail
top=$(cd "$(dirname "$0")/.." && pwd)
program=${1:-$top/crates/scheme_ls/out/scheme_ls}
[ -x "$program" ] || { echo "bench/ahead.sh: $program is missing: run bin/scheme_ls first" >&2; exit 1; }
command -v valgrind >/dev/null || { echo "bench/ahead.sh: valgrind isn't installed" >&2; exit 1; }
work=$(mktemp -d)
trap 'rm -rf "$work"' EXIT

# writes a stream of `initialize` and so many whole pieces: messages of a kind, and spaces behind a header where no more fits
stream() {
  python3 - "$@" <<'PYTHON'
import sys
kind, pieces = sys.argv[1], int(sys.argv[2])
PIECE = 65_536


def frame(body):
    return b"Content-Length: %d\r\n\r\n%s" % (len(body), body)


def unit(number):
    if kind == "byte":
        return frame(b"1")
    if kind == "notice":
        return frame(b'{"jsonrpc":"2.0","method":"x"}')
    return frame(b'{"jsonrpc":"2.0","id":%d,"method":"x"}' % number) + frame(b'{"jsonrpc":"2.0","method":"$/cancelRequest","params":{"id":%d}}' % number)


def piece(first):
    number, out = 0, first
    while len(out) + len(unit(number)) + 22 <= PIECE - 200:
        out += unit(number)
        number += 1
    # a body of spaces fills the piece up to its last byte
    rest = PIECE - len(out)
    size = rest - len(b"Content-Length: %d\r\n\r\n" % rest)
    out += frame(b" " * size)
    assert len(out) == PIECE, len(out)
    return out


begin = frame(b'{"jsonrpc":"2.0","id":0,"method":"initialize","params":{"capabilities":{}}}')
sys.stdout.buffer.write(piece(begin) + piece(b"") * (pieces - 1))
PYTHON
}

# the instructions of the program with the words behind the first, over this file
instructions() {
  local file=$1 status=0
  shift
  valgrind --tool=callgrind --callgrind-out-file="$work/out" "$program" "$@" <"$file" 2>"$work/said" >"$work/answer" || status=$?
  # the input ends without `exit`
  [ "$status" -eq 1 ] || { echo "bench/ahead.sh: $* ended with status $status" >&2; return 1; }
  sed -n 's/^==.*== Collected : \([0-9]*\).*/\1/p' "$work/said"
}

# those of one piece
of_one() {
  local many one
  many=$(instructions "$work/5" "$@") || return 1
  cp "$work/answer" "$work/answer-$#"
  one=$(instructions "$work/1" "$@") || return 1
  echo $(((many - one) / 4))
}

printf '%-44s %14s %14s %6s\n' 'a piece of 64 KiB of' serve 'serve --ahead' ratio
for kind in byte notice cancelled; do
  case $kind in
  byte) what='bodies of one byte' ;;
  notice) what='notifications of no method that is known' ;;
  cancelled) what='requests, each with its cancellation' ;;
  esac
  stream "$kind" 1 >"$work/1"
  stream "$kind" 5 >"$work/5"
  plain=$(of_one serve)
  ahead=$(of_one serve --ahead)
  # what is written differs only where something is cancelled
  if [ "$kind" != cancelled ] && ! cmp -s "$work/answer-1" "$work/answer-2"; then
    echo "bench/ahead.sh: other bytes with --ahead, for $what" >&2
    exit 1
  fi
  awk -v w="$what" -v p="$plain" -v a="$ahead" 'BEGIN { printf "%-44s %14d %14d %6.2f\n", w, p, a, a / p }'
done
