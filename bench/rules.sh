#!/usr/bin/env bash
# Measures macro uses: which rule a use matches and what its template gives, at a quarter, a half and the whole of a size (two
# doublings): one ellipsis, an ellipsis in an ellipsis, a tail, variables in a row, and variables under an ellipsis each.
# It prints seconds, and where valgrind is installed millions of instructions, which no other work on the machine changes.
# Run by hand, outside the gate: bench/rules.sh
# The timed program is made in a scratch repository, over copies of the crates that it stands on, and is proved before it is built.
set -euo pipefail
top=$(cd "$(dirname "$0")/.." && pwd)
work=$(mktemp -d)
trap 'rm -rf "$work"' EXIT

timed=$work/crates/rules_timed
mkdir -p "$timed/src" "$timed/proofs"
for crate in ls_base scheme_model node_pool scheme_tokens syntax_tree datum_reader rules_check rules_match rules_build; do
  mkdir "$work/crates/$crate"
  (cd "$top/crates/$crate" && for part in src specs proofs; do [ ! -d "$part" ] || cp -r "$part" "$work/crates/$crate/"; done)
  grep "^$crate:" "$top/crates.txt" >> "$work/crates.txt"
done
echo 'rules_timed: rules_build rules_match rules_check datum_reader scheme_tokens syntax_tree scheme_model ls_base' >> "$work/crates.txt"

cat > "$timed/src/main.rt" <<'RATTLE'
//! Reads the rules of a macro and a use of it from standard input, and times the match and the build.
#![tactic(auto)]
ghost use Rattle.std.specs.Prelude.{◌≤◌, All, length};
ghost use Rattle.datum_reader.specs.Views.{datum_of};
ghost use Rattle.datum_reader.specs.WellFormed.{WasRead};

use datum_reader::{Datum, read_all, seed};
use ls_base::Items;
use ls_base::limits::MAX_TEXT;
use rules_build::build;
use rules_check::check;
use rules_match::match_rules;
use std::alloc::Global;
use std::io;
use std::rt::Clock;
use std::time::Instant;
use syntax_tree::symbols::UseNo;
use syntax_tree::trees::Work;

/// How many nodes the build may take.
const ROOM: u32 = 4_194_304;

/// The microseconds of the match and of the build, and how many nodes were counted, if there is a use of rules and it is built.
fn expand(alloc: Global, clock: &impl Clock, forms: &[Datum]) -> Option<(u128, u128, u32)>
    requires { All (λ d. WasRead (datum_of d)) forms.now }
{
    if forms.len() != 2 {
        return None;
    }
    let mut work = Work::new(alloc);
    let Ok(region) = work.open_region() else {
        return None;
    };
    let Ok(written) = seed(alloc, &mut work, &region, &forms[0], 0, 0) else {
        return None;
    };
    let Ok(form) = seed(alloc, &mut work, &region, &forms[1], 0, 1) else {
        return None;
    };
    let Ok(rules) = check(alloc, &work, written) else {
        return None;
    };
    let same = Items::new(alloc);
    let start = Instant::now(clock).ok()?;
    let Ok(matched) = match_rules(alloc, &work, &rules, form, &same) else {
        return None;
    };
    let matching = start.elapsed(clock).ok()?;
    let number = UseNo {
        unit: 0,
        form: 1,
        count: 0,
    };
    let mut left = ROOM;
    let start = Instant::now(clock).ok()?;
    let built = build(alloc, &mut work, &region, &rules, &matched, number, &mut left);
    let building = start.elapsed(clock).ok()?;
    built.ok()?;
    Some((matching.as_micros(), building.as_micros(), ROOM.wrapping_sub(left)))
}

/// The same of a text.
fn times(alloc: Global, clock: &impl Clock, text: &str) -> Option<(u128, u128, u32)>
    requires { length text.now ≤ MAX_TEXT }
{
    let Ok(data) = read_all(alloc, text) else {
        return None;
    };
    expand(alloc, clock, data.as_slice())
}

fn main(rt: HostRuntime) -> io::Result<()> {
    let alloc = rt.alloc();
    let text = io::read_to_string(alloc, rt.reader())?;
    if text.len() > MAX_TEXT {
        return println!(rt; "too long");
    }
    match times(alloc, &rt, text.as_str()) {
        Some((matching, building, nodes)) => println!(rt; "{matching} {building} {nodes}"),
        None => println!(rt; "not built"),
    }
}
RATTLE
mkdir "$timed/proofs/expand" "$timed/proofs/times"
cat > "$timed/proofs/expand/Answers.antt" <<'ANTT'
use Rattle.std.proofs.Common.{◌≡◌}
use Rattle.syntax_tree.specs.Regions.{itself}
use Rattle.rules_timed.proofs.expand.Goals as goal

-- the region may name the use, which lies in it
pub build-built-requires-clause-matched : goal.build-built-requires-clause-matched
build-built-requires-clause-matched g c = c.in-Ok-match_rules.ensures.matched c.in-Ok.region (c.in-Ok.region.number, c.in-Ok-seed-2.ensures.region, itself)
ANTT
cat > "$timed/proofs/times/Answers.antt" <<'ANTT'
use Rattle.std.proofs.Common.{List, ◌<◌, slice_get, slice_index_or, Some, ap, sym, ◌∙◌, length, subst}
use Rattle.std.proofs.lemmas.Option.{slice_get-get_or}
use Rattle.datum_reader.specs.declared.datum.Datum as code
use Rattle.datum_reader.proofs.SeedLaws.{item_was_read}
use Rattle.rules_timed.proofs.times.Goals as goal

pub expand-requires : goal.expand-requires
expand-requires g c = λ n d lt.
    let items = c.as_slice.result.now in
    item_was_read c.args.text.now c.in-Ok.data n (slice_index_or items n d) c.utf8.text c.requires c.in-Ok.ensures.found
    (ap (λ (l : List code.Datum). slice_get l n) (sym c.as_slice.ensures) ∙ slice_get-get_or items n d lt)
ANTT

echo "building the timed program .." >&2
(cd "$timed" && rt run < /dev/null) > "$work/build.log" 2>&1 || { tail -20 "$work/build.log" >&2; exit 1; }

# writes a macro and a use of it, of so many parts. The same three rules stand in another order, so that the first which matches is
# one that takes anything for a constant, one with the pattern for a constant, or one with the pattern and the template
text() {
  python3 - "$@" <<'PYTHON'
import math, sys
shape, path, count = sys.argv[1], sys.argv[2], int(sys.argv[3])
side = math.isqrt(count)
def row(part, times=count):
    return ' '.join(part.replace('#', str(k)) for k in range(times))
pattern, template, use = {
    'row': ('x ...', '(x ...)', row('a')),
    'square': ('(x ...) ...', '((x ...) ...)', row('(%s)' % row('a', side), side)),
    'tail': ('x . r', '(x . r)', row('a')),
    'names': (row('x#'), '(%s)' % row('x#'), row('a')),
    'each': (row('(x# ...)'), '(%s)' % row('(x# ...)'), row('(a)')),
}[shape]
anything, matched, built = '((_ . r) 1)', '((_ %s) 1)' % pattern, '((_ %s) %s)' % (pattern, template)
orders = {'read': [anything, matched, built], 'matched': [matched, anything, built], 'built': [built, anything, matched]}
for name, rules in orders.items():
    open(path + '.' + name, 'w').write('(syntax-rules () %s) (m %s)' % (' '.join(rules), use))
PYTHON
}

# the least times of seven runs on the text, in seconds, and the count of nodes
seconds() {
  for _ in 1 2 3 4 5 6 7; do
    "$timed/out/rules_timed" < "$work/text.built"
  done | awk 'NF != 3 { print "not built" > "/dev/stderr"; exit 1 } NR == 1 || $1 < m { m = $1 } NR == 1 || $2 < b { b = $2 } { nodes = $3 }
    END { printf "%.4f %.4f %d", m / 1000000, b / 1000000, nodes }'
}

# the instructions of a run on the text with the rules in an order
instructions() {
  valgrind --tool=cachegrind --cache-sim=no --cachegrind-out-file=/dev/null "$timed/out/rules_timed" < "$work/text.$1" 2>&1 |
    awk '/I +refs:/ { gsub(",", "", $NF); print $NF }'
}

# millions of instructions of the match and of the build
millions() {
  command -v valgrind > /dev/null || { echo "- -"; return; }
  awk -v r="$(instructions read)" -v m="$(instructions matched)" -v b="$(instructions built)" 'BEGIN { printf "%.2f %.2f", (m - r) / 1000000, (b - m) / 1000000 }'
}

ratio() { awk -v a="$1" -v b="$2" 'BEGIN { print b + 0 == 0 ? "-" : sprintf("%.2f", a / b) }'; }

printf '%-7s %8s %8s | %9s %6s %9s %6s | %9s %6s %9s %6s\n' shape parts nodes "match, s" ratio "build, s" ratio "match, M" ratio "build, M" ratio
for shape in row square tail names each; do
  m= b= mm= bm=
  count=400000
  [ "$shape" != square ] || count=360000
  [ "$shape" != each ] || count=24000
  [ "$shape" != names ] || count=44000
  for parts in $((count / 4)) $((count / 2)) "$count"; do
    text "$shape" "$work/text" "$parts"
    read -r matching building nodes <<< "$(seconds)"
    read -r match_millions build_millions <<< "$(millions)"
    printf '%-7s %8d %8d | %9s %6s %9s %6s | %9s %6s %9s %6s\n' "$shape" "$parts" "$nodes" \
      "$matching" "$(ratio "$matching" "$m")" "$building" "$(ratio "$building" "$b")" \
      "$match_millions" "$(ratio "$match_millions" "$mm")" "$build_millions" "$(ratio "$build_millions" "$bm")"
    m=$matching b=$building mm=$match_millions bm=$build_millions
  done
done
