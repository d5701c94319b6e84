#!/bin/sh
# Runs the file of editors/vscode under Node.js with the built program, where stubs stand for the editor and its package of a language
# client: the steps of libraries.json (what is open at the server). What was sent is looked through by `wire`. It is skipped where
# Node.js or the built program is missing. SCHEME_LS names another program, if it is set.

top=$(cd "$(dirname "$0")/../.." && pwd) || exit 1
here=$top/tests/clients
program=${SCHEME_LS:-$top/crates/scheme_ls/out/scheme_ls}

if ! command -v node >/dev/null 2>&1; then
    echo "tests/clients/vscode.sh: skipped, node isn't installed"
    exit 0
fi
if [ ! -x "$program" ]; then
    echo "tests/clients/vscode.sh: skipped, $program isn't built"
    exit 0
fi

room=$(mktemp -d) || exit 1
trap 'rm -rf "$room"' EXIT
mkdir "$room/texts"
HERE=$here ROOM=$room/texts STEPS=libraries.json SCHEME_LS=$top/tests/sessions/proxy SESSION_SERVER=$program SESSION_FILE=$room/session \
    timeout 300 node "$here/vscode.js" || exit
"$here/wire" "$room/session"
