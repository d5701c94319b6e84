#!/bin/sh
# Drives the built program with Eglot, the language client of Emacs, headless, and with the file of editors/emacs: the steps of
# questions.json (answers to all that is asked), libraries.json (what is open at the server) and renames.json (renames, and what is said
# where one is refused), each in an Emacs of its own with a shutdown at the end, and a server that ends at once. What was sent is looked through by `wire`. It is skipped where Emacs, Eglot or
# the built program is missing. SCHEME_LS names another program, if it is set; where SESSION_FILE is set, a session is being recorded,
# and there are the steps of questions.json alone.

top=$(cd "$(dirname "$0")/../.." && pwd) || exit 1
here=$top/tests/clients
program=${SCHEME_LS:-$top/crates/scheme_ls/out/scheme_ls}

if ! command -v emacs >/dev/null 2>&1; then
    echo "tests/clients/emacs.sh: skipped, emacs isn't installed"
    exit 0
fi
if [ ! -x "$program" ]; then
    echo "tests/clients/emacs.sh: skipped, $program isn't built"
    exit 0
fi

room=$(mktemp -d) || exit 1
trap 'rm -rf "$room"' EXIT
mkdir "$room/home"
if ! HOME=$room/home emacs --batch --eval '(progn (package-initialize) (kill-emacs (if (locate-library "eglot") 0 1)))' >/dev/null 2>&1; then
    echo "tests/clients/emacs.sh: skipped, Emacs has no Eglot"
    exit 0
fi

# The steps of $1, with the program $2. Emacs goes on after an error of a timer, so what it says is looked through.
run_steps() {
    mkdir "$room/texts-$1" && cd "$room/texts-$1" || exit 1
    HERE=$here ROOM=$room/texts-$1 STEPS=$1.json SCHEME_LS=$2 HOME=$room/home LC_ALL=C.UTF-8 \
        timeout 300 emacs --batch -l "$here/emacs.el" 2>&1 |
        grep -v '^Loading /\|^Warning (eglot)' >"$room/said"
    if grep -q '^Error ' "$room/said" || ! tail -n 1 "$room/said" | grep -q 'steps passed$'; then
        cat "$room/said"
        exit 1
    fi
    tail -n 1 "$room/said"
}

if [ -n "$SESSION_FILE" ]; then
    run_steps questions "$program"
    exit
fi
for it in questions libraries renames; do
    SESSION_SERVER=$program SESSION_FILE=$room/$it.session run_steps $it "$top/tests/sessions/proxy"
    "$here/wire" "$room/$it.session" || exit
done

printf '#!/bin/sh\necho started >>"%s/starts"\nexit 3\n' "$room" >"$room/dies"
chmod +x "$room/dies"
HOME=$room/home timeout 60 emacs --batch --eval "(progn
  (package-initialize)
  (add-to-list 'load-path \"$top/editors/emacs\")
  (defvar scheme-ls-command '(\"$room/dies\"))
  (require 'scheme-ls)
  (dolist (file '(\"a.scm\" \"b.scm\"))
    (find-file file)
    (ignore-errors (run-hooks 'post-command-hook)))
  (sleep-for 4))" >"$room/said" 2>&1
starts=$(wc -l <"$room/starts")
if [ "$starts" -ne 2 ]; then
    echo "tests/clients/emacs.sh: for two files, a server that ends at once was started $starts times, and not twice"
    cat "$room/said"
    exit 1
fi
echo "tests/clients/emacs.sh: for two files, a server that ends at once was started twice"
