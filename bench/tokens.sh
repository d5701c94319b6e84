#!/usr/bin/env bash
# Times scheme_tokens on generated texts of 1, 2 and 4 MiB, and beside it a C program that counts the tokens of the same
# bytes. Run by hand, outside the gate: bench/tokens.sh [MiB of the first text]
# The timed program is made in a scratch repository, over copies of ls_base and scheme_tokens, and is proved before it is built.
set -euo pipefail
top=$(cd "$(dirname "$0")/.." && pwd)
first=${1:-1}
work=$(mktemp -d)
trap 'rm -rf "$work"' EXIT

timed=$work/crates/tokens_timed
mkdir -p "$timed/src"
for crate in ls_base scheme_tokens; do
  mkdir "$work/crates/$crate"
  (cd "$top/crates/$crate" && cp -r src specs proofs "$work/crates/$crate/")
done
printf '%s\n' 'ls_base:' 'scheme_tokens: ls_base unicode' 'tokens_timed: ls_base scheme_tokens' > "$work/crates.txt"

cat > "$timed/src/main.rt" <<'RATTLE'
//! Counts the tokens of standard input.
#![tactic(auto)]

use scheme_tokens::tokens;
use std::io;

fn main(rt: HostRuntime) -> io::Result<()> {
    let text = io::read_to_string(rt.alloc(), rt.reader())?;
    if text.len() > 1 << 30 {
        return println!(rt; "too long");
    }
    match tokens(rt.alloc(), text.as_str()) {
        Ok(found) => {
            let count = found.as_slice().len();
            println!(rt; "{count} tokens")
        }
        Err(_) => println!(rt; "not read"),
    }
}
RATTLE

echo "building the timed program .." >&2
(cd "$timed" && rt run < /dev/null) > "$work/build.log" 2>&1 || { tail -20 "$work/build.log" >&2; exit 1; }
gcc -O2 -o "$work/count_tokens" "$top/bench/count_tokens.c"

# writes a text of so many MiB at least: definitions with names, numerals, strings, characters and comments
text() {
  python3 - "$@" <<'PYTHON'
import random, sys
path, mib = sys.argv[1], int(sys.argv[2])
random.seed(mib)
letters = 'abcdefghijklmnopqrstuvwxyz-?!λé'
def name():
    return random.choice('abcdefghij') + ''.join(random.choice(letters) for _ in range(random.randint(0, 11)))
def atom():
    kind = random.randint(0, 9)
    if kind < 6:
        return name()
    if kind == 6:
        return str(random.randint(0, 1000000))
    if kind == 7:
        return '"%s\\n"' % ' '.join(name() for _ in range(3))
    if kind == 8:
        return "'" + name()
    return random.choice(['#t', '#f', '#\\a', '#\\space', '|a b|'])
written = 0
with open(path, 'wb') as out:
    while written < mib << 20:
        inside = ' '.join(('(%s)' % ' '.join(atom() for _ in range(4))) if random.random() < .4 else atom() for _ in range(6))
        line = '(define (%s %s)\n  %s) ; %s\n' % (name(), name(), inside, name())
        written += out.write(line.encode())
PYTHON
}

# the least time of five runs, in seconds
seconds() {
  local best=1000000000 start end
  for _ in 1 2 3 4 5; do
    start=${EPOCHREALTIME/./}
    "$1" < "$2" > "$work/answer"
    end=${EPOCHREALTIME/./}
    [ $((end - start)) -ge "$best" ] || best=$((end - start))
  done
  awk -v us="$best" 'BEGIN { printf "%.4f", us / 1000000 }'
}

printf '%6s %10s %9s %12s %12s %9s %8s\n' MiB tokens seconds tokens/s 'to half size' 'C seconds' 'to C'
before=
for mib in "$first" $((first * 2)) $((first * 4)); do
  text "$work/text" "$mib"
  ours=$(seconds "$timed/out/tokens_timed" "$work/text")
  cp "$work/answer" "$work/ours"
  theirs=$(seconds "$work/count_tokens" "$work/text")
  cmp -s "$work/answer" "$work/ours" || { echo "the counts differ: $(cat "$work/ours") and $(cat "$work/answer")" >&2; exit 1; }
  awk -v n="$(cut -d' ' -f1 "$work/ours")" -v m="$mib" -v o="$ours" -v t="$theirs" -v p="$before" \
    'BEGIN { printf "%6d %10d %9.4f %12.0f %12s %9.4f %8.2f\n", m, n, o, n / o, p == "" ? "-" : sprintf("%.2f", o / p), t, o / t }'
  before=$ours
done
