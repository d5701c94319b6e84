#!/usr/bin/env bash
# Counts what it takes to compare a program of 1,000 forms with itself, and with one that differs in its last form, beside what it takes
# to read and expand it once: millions of instructions by valgrind, which no other work on the machine changes. The program
# `program_rows` is given a row that expands both programs, and one that compares them besides; a row that it refuses as soon as its
# JSON is read is taken off what expanding takes.
# Run by hand, outside the gate, once crates/program_rows is built (by `rt run` in its folder, or by the gate): bench/differences.sh
set -euo pipefail
top=$(cd "$(dirname "$0")/.." && pwd)
program=$top/crates/program_rows/out/program_rows
[ -x "$program" ] || { echo "bench/differences.sh: $program is missing" >&2; exit 1; }
work=$(mktemp -d)
trap 'rm -rf "$work"' EXIT

# writes the rows of a shape: forms of a program, of which the last is another in the changed one
rows() {
  python3 - "$work" "$1" <<'PYTHON'
import json, pathlib, sys
folder, shape = pathlib.Path(sys.argv[1]), sys.argv[2]
core = """(define (f%d a b c)
  (define x (+ a b))
  (define (down n kept) (if (< n 1) kept (down (- n 1) (cons n kept))))
  (set! x (* x c))
  (if (eq? x 0) (quote (done %d)) (down x (list a b c (lambda (y) (f%d y a x))))))
"""
derived = """(define (g%d a b)
  (let* ((x (+ a b)) (y (* x 2)))
    (cond ((assv x '((1 . 2))) => cdr)
          ((and (> x 1) (or (< y 9) (even? y)))
           (let down ((i %d) (kept '())) (if (= i y) kept (down (- i 1) (cons i kept)))))
          (else (when (zero? x) (set! y 1)) (g%d y a)))))
"""
macros = """(define-syntax m%d (syntax-rules (else)
  ((_ x) (list x %d))
  ((_ x else y z ...) (let ((t x)) (if t (m%d t z ...) y)))))
"""
form = {"core": core, "derived": derived, "macros": macros}[shape]
text = "".join(form % (k, k, max(k - 1, 0)) for k in range(1000))
changed = "car".join(text.rsplit("list" if shape != "derived" else "cons", 1))
old, new = [["a.scm", text]], [["a.scm", changed]]
for name, call, argument in (
    ("refused", "read", [0, old, old]),
    ("read", "read", [old, old]),
    ("same", "of", [old, old, []]),
    ("read-changed", "read", [old, new]),
    ("changed", "of", [old, new, []]),
):
    (folder / name).write_text(f"differences/{call}\t{json.dumps(argument, separators=(',', ':'))}\n")
(folder / "bytes").write_text(str(len(text)))
PYTHON
}

# what a row is answered, with no forms counted
answered() { "$program" < "$work/$1" | cut -c 1-40; }

# the millions of instructions of a row
count() {
  valgrind --tool=cachegrind --cache-sim=no --cachegrind-out-file=/dev/null "$program" < "$work/$1" 2>&1 > /dev/null |
    awk '/I +refs:/ { gsub(",", "", $NF); printf "%.2f", $NF / 1000000 }'
}

part() { awk -v a="$1" -v b="$2" 'BEGIN { printf "%.3f", a / b }'; }
less() { awk -v a="$1" -v b="$2" -v by="${3:-1}" 'BEGIN { printf "%.2f", (a - b) / by }'; }

printf '%-8s %8s %12s %12s %6s %12s %6s  %s\n' shape bytes 'expand once' same part 'last changed' part 'told of the last'
for shape in core derived macros; do
  rows "$shape"
  [ "$(answered same)" = null ] || { echo "$shape: not the same" >&2; exit 1; }
  expand=$(less "$(count read)" "$(count refused)" 2)
  same=$(less "$(count same)" "$(count read)")
  changed=$(less "$(count changed)" "$(count read-changed)")
  printf '%-8s %8s %12s %12s %6s %12s %6s  %s\n' "$shape" "$(cat "$work/bytes")" "$expand" "$same" "$(part "$same" "$expand")" "$changed" "$(part "$changed" "$expand")" "$(answered changed)"
done
