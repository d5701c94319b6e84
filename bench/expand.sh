#!/usr/bin/env bash
# Measures expansion: from the text of a program to its items and diagnostics, at an eighth, a quarter, a half and the whole of a size
# (three doublings), and the part of it that reading takes: procedures of core forms, procedures with the derived forms of the prelude,
# macro uses and then as many definitions, and one `begin` of definitions. Where Chez Scheme is installed it reads and expands the same
# text beside it. It prints seconds, and where valgrind is installed millions of instructions of a whole run (the text is read once
# more in it), which no other work on the machine changes.
# Run by hand, outside the gate: bench/expand.sh
# The timed program is made in a scratch repository, over copies of the crates that it stands on, and is proved before it is built;
# libraries that `rt check` built before are taken along.
set -euo pipefail
top=$(cd "$(dirname "$0")/.." && pwd)
work=$(mktemp -d)
trap 'rm -rf "$work"' EXIT

timed=$work/crates/expand_timed
mkdir -p "$timed/src"
needs() { grep "^$1:" "$top/crates.txt" | cut -d: -f2; }
all=' ' todo=' workspace_state'
while [ -n "${todo// /}" ]; do
  next=
  for crate in $todo; do
    [ -d "$top/crates/$crate" ] && [[ "$all" != *" $crate "* ]] || continue
    all="$all$crate "
    next="$next $(needs "$crate")"
  done
  todo=$next
done
for crate in $all; do
  mkdir "$work/crates/$crate"
  (cd "$top/crates/$crate" && for part in src specs proofs; do [ ! -d "$part" ] || cp -r "$part" "$work/crates/$crate/"; done)
  [ ! -d "$top/crates/$crate/out/rlib" ] || { mkdir "$work/crates/$crate/out" && cp -r "$top/crates/$crate/out/rlib" "$work/crates/$crate/out/"; }
  grep "^$crate:" "$top/crates.txt" >> "$work/crates.txt"
done
echo 'expand_timed: workspace_state datum_reader core_tree ls_base' >> "$work/crates.txt"

cat > "$timed/src/main.rt" <<'RATTLE'
//! Reads a program from standard input, and times how long it takes to read its data, and to take it into a workspace.
#![tactic(auto)]
ghost use Rattle.std.specs.Prelude.{◌≡◌, ◌<◌, ◌^◌, length};

use datum_reader::read_all;
use ls_base::limits::MAX_TEXT;
use ls_base::{Mem, Steps, Text};
use std::alloc::Global;
use std::io;
use std::marker::Brand;
use std::rt::Clock;
use std::sync::ledger::{Blank, Ledger};
use std::time::Instant;
use workspace_state::{DocEvent, Updated, Workspace};

/// How many diagnostics were published.
fn diagnostics(updated: &Updated) -> usize {
    match updated.lists.as_slice().first() {
        Some(published) => published.list.as_slice().len(),
        None => 0,
    }
}

/// How many items the first unit's forms have.
fn items(workspace: &Workspace) -> usize {
    let Some(unit) = workspace.program().units.as_slice().first() else {
        return 0;
    };
    let mut count: usize = 0;
    for form in unit.forms.as_slice() {
        count = count.saturating_add(form.items.as_slice().len());
    }
    count
}

/// A text that is opened.
fn opened(alloc: Global, text: &str) -> Mem<DocEvent> {
    Ok(DocEvent::Added {
        uri: Text::of(alloc, "a.scm")?,
        version: 1,
        text: Text::of(alloc, text)?,
    })
}

/// Takes an event in.
fn taken_in<L: Ledger>(blank: Blank, workspace: &mut Workspace, event: &DocEvent) -> Mem<Updated>
    requires name { blank.name ≡ L.name }
    requires parts { blank.parts ≡ L.parts }
    requires some { 0 < blank.parts }
{
    let mut steps = Steps::<L>::new(blank);
    Ok(workspace.update(event, &mut steps)?)
}

/// The same, with a count of steps of its own.
fn updated(workspace: &mut Workspace, event: &DocEvent) -> Mem<Updated> {
    Ok(taken_in::<Brand>(Blank::new(1), workspace, event)?)
}

/// The microseconds of reading a text and of taking it in, and how many items and diagnostics it has.
fn times(alloc: Global, clock: &impl Clock, text: &str) -> Option<(u128, u128, usize, usize)>
    requires { length text.now < 2 ^ 32 }
{
    let start = Instant::now(clock).ok()?;
    let data = read_all(alloc, text);
    let reading = start.elapsed(clock).ok()?;
    data.ok()?;
    let event = opened(alloc, text).ok()?;
    let mut workspace = Workspace::new(alloc).ok()?;
    let start = Instant::now(clock).ok()?;
    let updated = updated(&mut workspace, &event);
    let taking = start.elapsed(clock).ok()?;
    let found = diagnostics(&updated.ok()?);
    Some((reading.as_micros(), taking.as_micros(), items(&workspace), found))
}

fn main(rt: HostRuntime) -> io::Result<()> {
    let alloc = rt.alloc();
    let text = io::read_to_string(alloc, rt.reader())?;
    if text.len() > MAX_TEXT {
        return println!(rt; "too long");
    }
    match times(alloc, &rt, text.as_str()) {
        Some((reading, taking, items, found)) => println!(rt; "{reading} {taking} {items} {found}"),
        None => println!(rt; "not expanded"),
    }
}
RATTLE

mkdir -p "$timed/proofs/updated"
cat > "$timed/proofs/updated/Invariants.antt" <<'ANTT'
use Rattle.expand_timed.proofs.updated.Given as goal

abbrev pub ghosts-taken_in : goal.ghosts-taken_in
ghosts-taken_in a = record { name = a.blank.name; parts = a.blank.parts }
ANTT

echo "building the timed program .." >&2
(cd "$timed" && rt run < /dev/null) > "$work/build.log" 2>&1 || { tail -20 "$work/build.log" >&2; exit 1; }

# writes a program of so many procedures or definitions
text() {
  python3 - "$@" <<'PYTHON'
import sys
shape, count, path = sys.argv[1], int(sys.argv[2]), sys.argv[3]
core = """(define (f%d a b c)
  (define x (+ a b))
  (define (down n kept) (if (< n 1) kept (down (- n 1) (cons n kept))))
  (set! x (* x c))
  (if (eq? x 0) (quote (done %d)) (down x (list a b c (lambda (y) (f%d y a x))))))
"""
derived = """(define (g%d a b)
  (let* ((x (+ a b)) (y (* x 2)))
    (cond ((assv x '((1 . 2))) => cdr)
          ((and (> x 1) (or (< y 9) (even? y)))
           (let down ((i %d) (kept '())) (if (= i y) kept (down (- i 1) (cons i kept)))))
          (else (when (zero? x) (set! y 1)) (g%d y a)))))
"""
if shape == 'core':
    out = ''.join(core % (k, k, max(k - 1, 0)) for k in range(count))
elif shape == 'derived':
    out = ''.join(derived % (k, k, max(k - 1, 0)) for k in range(count))
elif shape == 'asked':
    out = '(define-syntax same (syntax-rules () ((_ x) x)))\n'
    out += ''.join('(same %d)\n' % k for k in range(count)) + ''.join('(define d%d %d)\n' % (k, k) for k in range(count))
else:
    out = '(begin\n' + ''.join('(define d%d %d)\n' % (k, k) for k in range(count)) + ')\n'
open(path, 'w').write(out)
PYTHON
}

# the least times of seven runs on the text, in seconds, and the counts of items and diagnostics
seconds() {
  for _ in 1 2 3 4 5 6 7; do
    "$timed/out/expand_timed" < "$work/text"
  done | awk 'NF != 4 { print "not expanded" > "/dev/stderr"; exit 1 } NR == 1 || $1 < r { r = $1 } NR == 1 || $2 < t { t = $2 } { items = $3; found = $4 }
    END { printf "%.4f %.4f %d %d", r / 1000000, t / 1000000, items, found }'
}

# the least time of seven in which Chez Scheme reads and expands the text
chez() {
  command -v chezscheme > /dev/null || { echo -; return; }
  cat > "$work/time.ss" <<'SCHEME'
(define (expand-all path)
  (call-with-input-file path
    (lambda (port)
      (let next ((form (read port)))
        (unless (eof-object? form)
          (expand form)
          (when (and (pair? form) (eq? (car form) 'define-syntax))
            (eval form))
          (next (read port)))))))
(define (seconds path)
  (collect)
  (let ((start (current-time 'time-monotonic)))
    (expand-all path)
    (let ((taken (time-difference (current-time 'time-monotonic) start)))
      (+ (time-second taken) (/ (time-nanosecond taken) 1e9)))))
(define path (cadr (command-line)))
(let next ((k 7) (least 1e9))
  (if (= k 0)
      (begin (display least) (newline))
      (next (- k 1) (min least (seconds path)))))
SCHEME
  chezscheme --script "$work/time.ss" "$work/text" | awk '{ printf "%.4f", $1 }'
}

# the millions of instructions of one run on the text
instructions() {
  command -v valgrind > /dev/null || { echo -; return; }
  valgrind --tool=cachegrind --cache-sim=no --cachegrind-out-file=/dev/null "$timed/out/expand_timed" < "$work/text" 2>&1 |
    awk '/I +refs:/ { gsub(",", "", $NF); printf "%.1f", $NF / 1000000 }'
}

ratio() { awk -v a="$1" -v b="$2" 'BEGIN { print b + 0 == 0 ? "-" : sprintf("%.2f", a / b) }'; }

printf '%-8s %7s %8s %6s %6s | %9s %9s %6s | %9s %6s | %9s\n' shape count bytes items found "read, s" "all, s" ratio "mill. in." ratio "Chez, s"
for shape in core derived asked begin; do
  before='' counted_before=''
  whole=1000
  [ "$shape" != asked ] && [ "$shape" != begin ] || whole=10000
  for count in $((whole / 8)) $((whole / 4)) $((whole / 2)) "$whole"; do
    text "$shape" "$count" "$work/text"
    read -r reading taking items found <<< "$(seconds)"
    counted=$(instructions)
    printf '%-8s %7d %8d %6d %6d | %9s %9s %6s | %9s %6s | %9s\n' "$shape" "$count" "$(wc -c < "$work/text")" "$items" "$found" \
      "$reading" "$taking" "$(ratio "$taking" "$before")" "$counted" "$(ratio "$counted" "$counted_before")" "$(chez)"
    before=$taking counted_before=$counted
  done
done
