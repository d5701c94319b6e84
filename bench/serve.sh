#!/bin/sh
# Times the built `scheme_ls serve` as an editor would see it: start, documents, questions, memory, and hostile texts. The client is
# bench/serve.py, which says what is measured. Where Chez Scheme is installed it reads and expands some of the texts beside it.
# Run it by hand, outside the gate: bench/serve.sh [--runs N] [--limit SECONDS] [PROGRAM] [GROUP ..]

exec python3 "$(dirname "$0")/serve.py" "$@"
