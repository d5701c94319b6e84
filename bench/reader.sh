#!/usr/bin/env bash
# Times reading: the tokens of generated texts, their data, and the trees of these, at 1/8, 1/4, 1/2 and 1 MiB (three doublings);
# and the data of texts of 1 MiB whose shapes could be slow. Run by hand, outside the gate: bench/reader.sh
# The timed program is made in a scratch repository, over copies of the crates that it stands on, and is proved before it is built.
set -euo pipefail
top=$(cd "$(dirname "$0")/.." && pwd)
work=$(mktemp -d)
trap 'rm -rf "$work"' EXIT

timed=$work/crates/reader_timed
mkdir -p "$timed/src" "$timed/proofs/planted" "$timed/proofs/count"
for crate in ls_base scheme_model node_pool scheme_tokens syntax_tree datum_reader; do
  mkdir "$work/crates/$crate"
  (cd "$top/crates/$crate" && for part in src specs proofs; do [ ! -d "$part" ] || cp -r "$part" "$work/crates/$crate/"; done)
  grep "^$crate:" "$top/crates.txt" >> "$work/crates.txt"
done
echo 'reader_timed: datum_reader scheme_tokens syntax_tree scheme_model ls_base' >> "$work/crates.txt"

cat > "$timed/src/main.rt" <<'RATTLE'
//! Reads standard input: its tokens, with the word `data` its data, and with `trees` their trees too.
#![tactic(auto)]
ghost use Rattle.std.specs.Prelude.{◌≤◌, All, length};
ghost use Rattle.datum_reader.specs.Views.{datum_of};
ghost use Rattle.datum_reader.specs.WellFormed.{WasRead};

use datum_reader::{Datum, read_all, seed};
use ls_base::limits::MAX_TEXT;
use scheme_tokens::tokens;
use std::alloc::Global;
use std::env;
use std::io;
use syntax_tree::trees::{PoolFault, Work};

/// Makes the trees of data, and counts them.
fn planted(alloc: Global, data: &[Datum]) -> Result<usize, PoolFault>
    requires { All (λ d. WasRead (datum_of d)) data.now }
{
    let mut work = Work::new(alloc);
    let region = work.open_region()?;
    for datum in data {
        seed(alloc, &mut work, &region, datum, 0, 0)?;
    }
    Ok(data.len())
}

/// How many data a text has, or trees of them.
fn count(alloc: Global, text: &str, trees: bool) -> Option<usize>
    requires { length text.now ≤ MAX_TEXT }
{
    let Ok(data) = read_all(alloc, text) else {
        return None;
    };
    if trees {
        planted(alloc, data.as_slice()).ok()
    } else {
        Some(data.as_slice().len())
    }
}

fn main(rt: HostRuntime) -> io::Result<()> {
    let alloc = rt.alloc();
    let text = io::read_to_string(alloc, rt.reader())?;
    if text.len() > MAX_TEXT {
        return println!(rt; "too long");
    }
    let words = env::args(&rt)?.count();
    if words > 1 {
        match count(alloc, text.as_str(), words > 2) {
            Some(count) => println!(rt; "{count} data"),
            None => println!(rt; "not read"),
        }
    } else {
        match tokens(alloc, text.as_str()) {
            Ok(found) => {
                let count = found.as_slice().len();
                println!(rt; "{count} tokens")
            }
            Err(_) => println!(rt; "not read"),
        }
    }
}
RATTLE
cat > "$timed/proofs/planted/Invariants.antt" <<'ANTT'
use Rattle.syntax_tree.specs.Works.{IsOpened}
use Rattle.reader_timed.proofs.planted.Given as goal

abbrev pub invariant-loop-datum : goal.invariant-loop-datum
invariant-loop-datum l = IsOpened l.work l.region
ANTT
cat > "$timed/proofs/count/Answers.antt" <<'ANTT'
use Rattle.std.proofs.Common.{List, slice_get, get_or, Some, ap, sym, ◌∙◌, length, subst}
use Rattle.std.proofs.lemmas.Option.{slice_get-get_or}
use Rattle.datum_reader.specs.declared.datum.Datum as code
use Rattle.datum_reader.proofs.SeedLaws.{item_was_read}
use Rattle.reader_timed.proofs.count.Goals as goal

pub planted-requires : goal.planted-requires
planted-requires c = λ n d lt.
    let items = c.as_slice.result.now in
    item_was_read c.args.text.now c.in-Ok.data n (get_or items n d) c.utf8.text c.requires c.in-Ok.ensures.found
    (ap (λ (l : List code.Datum). slice_get l n) (sym c.as_slice.ensures) ∙ slice_get-get_or items n d lt)
ANTT

echo "building the timed program .." >&2
(cd "$timed" && rt run < /dev/null) > "$work/build.log" 2>&1 || { tail -20 "$work/build.log" >&2; exit 1; }

# writes a text of a kind with at most so many KiB
text() {
  python3 - "$@" <<'PYTHON'
import random, sys
kind, path, size = sys.argv[1], sys.argv[2], int(sys.argv[3]) << 10
random.seed(size)
letters = 'abcdefghijklmnopqrstuvwxyz-?!λé'
def name():
    return random.choice('abcdefghij') + ''.join(random.choice(letters) for _ in range(random.randint(0, 11)))
def atom():
    kind = random.randint(0, 9)
    if kind < 6:
        return name()
    if kind == 6:
        return str(random.randint(0, 1000000))
    if kind == 7:
        return '"%s\\n"' % ' '.join(name() for _ in range(3))
    if kind == 8:
        return "'" + name()
    return random.choice(['#t', '#f', '#\\a', '#\\space', '|a b|'])
def program():
    lines, left = [], size
    while left > 400:
        inside = ' '.join(('(%s)' % ' '.join(atom() for _ in range(4))) if random.random() < .4 else atom() for _ in range(6))
        line = ('(define (%s %s)\n  %s) ; %s\n' % (name(), name(), inside, name())).encode()
        lines.append(line)
        left -= len(line)
    return b''.join(lines)
kinds = {
    'program': program,
    'list': lambda: b'(' + b'a ' * (size // 2 - 1) + b')',
    'nested': lambda: (b'(' * 400 + b')' * 400) * (size // 800),
    'tails': lambda: b'(a . ' * 399 + b'(' + b'x ' * (size // 2 - 1400) + b')' * 400,
    'marks': lambda: (b"'" * 400 + b'a ') * (size // 402),
    'skips': lambda: (b'#;' * 400 + b'a ' * 400) * (size // 1600),
    'string': lambda: b'"' + b'a\\n' * (size // 3 - 1) + b'"',
}
open(path, 'wb').write(kinds[kind]())
PYTHON
}

# the least time of five runs on the text, in seconds
seconds() {
  local best=1000000000 start end
  for _ in 1 2 3 4 5; do
    start=${EPOCHREALTIME/./}
    "$timed/out/reader_timed" "$@" < "$work/text" > "$work/answer"
    end=${EPOCHREALTIME/./}
    [ $((end - start)) -ge "$best" ] || best=$((end - start))
  done
  awk -v us="$best" 'BEGIN { printf "%.4f", us / 1000000 }'
}

ratio() { awk -v a="$1" -v b="$2" 'BEGIN { print b == "" ? "-" : sprintf("%.2f", a / b) }'; }

printf '%6s %9s %6s %9s %6s %9s %6s\n' KiB tokens ratio data ratio trees ratio
t= d= r=
for kib in 128 256 512 1024; do
  text program "$work/text" "$kib"
  tokens=$(seconds) data=$(seconds data) trees=$(seconds data trees)
  printf '%6d %9s %6s %9s %6s %9s %6s\n' "$kib" "$tokens" "$(ratio "$tokens" "$t")" "$data" "$(ratio "$data" "$d")" "$trees" "$(ratio "$trees" "$r")"
  t=$tokens d=$data r=$trees
done
printf '\n%-8s %9s %9s %9s  of 1 MiB\n' shape tokens data trees
for kind in list nested tails marks skips string; do
  text "$kind" "$work/text" 1024
  printf '%-8s %9s %9s %9s  %s\n' "$kind" "$(seconds)" "$(seconds data)" "$(seconds data trees)" "$(cat "$work/answer")"
done
