#!/usr/bin/env bash
# Times the deframer of lsp_framing on generated streams of 16, 32 and 64 MiB, read in pieces of 65,536 bytes, and beside it
# a C program that counts the frames of the same bytes. Run by hand, outside the gate: bench/frames.sh [MiB of the first stream]
# The timed program is made in a scratch repository, over copies of ls_base and lsp_framing, and is proved before it is built.
set -euo pipefail
top=$(cd "$(dirname "$0")/.." && pwd)
first=${1:-16}
work=$(mktemp -d)
trap 'rm -rf "$work"' EXIT

timed=$work/crates/frames_timed
mkdir -p "$timed/src" "$timed/proofs/main"
for crate in ls_base lsp_framing; do
  mkdir "$work/crates/$crate"
  (cd "$top/crates/$crate" && cp -r src specs proofs "$work/crates/$crate/")
done
printf '%s\n' 'ls_base:' 'lsp_framing: ls_base' 'frames_timed: ls_base lsp_framing' > "$work/crates.txt"

cat > "$timed/src/main.rt" <<'RATTLE'
//! Counts the frames of standard input.
#![tactic(auto)]

use lsp_framing::Deframer;
use std::io;
use std::io::Read;

fn main(rt: HostRuntime) -> io::Result<()> {
    let mut deframer = Deframer::new(rt.alloc());
    let mut input = rt.reader();
    let mut buffer = [0u8; 65536];
    let mut taken = 0u64;
    let mut frames = 0u64;
    for _ in 0..u64::MAX {
        let count = input.read(&mut buffer)?;
        if count == 0 || taken > 1 << 40 {
            break;
        }
        taken += count as u64;
        match deframer.feed(&buffer[..count]) {
            Ok(items) => frames = frames.wrapping_add(items.as_slice().len() as u64),
            Err(_) => break,
        }
    }
    println!(rt; "{frames} frames, {taken} bytes")
}
RATTLE
cat > "$timed/proofs/main/Invariants.antt" <<'ANTT'
use Rattle.std.proofs.Common.{◌≡◌}
use Rattle.frames_timed.proofs.main.Given as goal

abbrev pub invariant-loop : goal.invariant-loop
invariant-loop l = l.deframer.taken ≡ l.taken
ANTT

echo "building the timed program .." >&2
(cd "$timed" && rt run < /dev/null) > "$work/build.log" 2>&1 || { tail -20 "$work/build.log" >&2; exit 1; }
gcc -O2 -o "$work/count_frames" "$top/bench/count_frames.c"

# writes a stream of so many MiB, its bodies of so many bytes at least and at most
stream() {
  python3 - "$@" <<'PYTHON'
import random, sys
path, mib, least, most = sys.argv[1], int(sys.argv[2]), int(sys.argv[3]), int(sys.argv[4])
random.seed(mib)
written = 0
with open(path, 'wb') as out:
    while written < mib << 20:
        size = random.randint(least, most)
        written += out.write(b'Content-Length: %d\r\n\r\n' % size + b'x' * size)
PYTHON
}

# the least time of five runs, in seconds
seconds() {
  local best=1000000 start end
  for _ in 1 2 3 4 5; do
    start=${EPOCHREALTIME/./}
    "$1" < "$2" > "$work/answer"
    end=${EPOCHREALTIME/./}
    [ $((end - start)) -ge "$best" ] || best=$((end - start))
  done
  awk -v us="$best" 'BEGIN { printf "%.4f", us / 1000000 }'
}

printf '%-24s %6s %9s %12s %9s %8s\n' bodies MiB seconds 'to half size' 'C seconds' 'to C'
for bodies in '20 200' '200 4000' '100000 8388608'; do
  before=
  for mib in "$first" $((first * 2)) $((first * 4)); do
    # shellcheck disable=SC2086
    stream "$work/stream" "$mib" $bodies
    ours=$(seconds "$timed/out/frames_timed" "$work/stream")
    cp "$work/answer" "$work/ours"
    theirs=$(seconds "$work/count_frames" "$work/stream")
    cmp -s "$work/answer" "$work/ours" || { echo "the counts differ: $(cat "$work/ours") and $(cat "$work/answer")" >&2; exit 1; }
    awk -v b="${bodies/ / to }" -v m="$mib" -v o="$ours" -v t="$theirs" -v p="$before" \
      'BEGIN { printf "%-24s %6d %9.4f %12s %9.4f %8.2f\n", b, m, o, p == "" ? "-" : sprintf("%.2f", o / p), t, o / t }'
    before=$ours
  done
done
