#!/bin/sh
# Checks that the file of editors/kakoune makes Scheme of the files that it names. kak-lsp isn't driven. It is skipped where Kakoune is
# missing.

here=$(cd "$(dirname "$0")" && pwd) || exit 1

if ! command -v kak >/dev/null 2>&1; then
    echo "tests/clients/kakoune.sh: skipped, kak isn't installed"
    exit 0
fi

room=$(mktemp -d) || exit 1
trap 'rm -rf "$room"' EXIT
cp "$here/../../editors/kakoune/scheme_ls.kak" "$room"
cd "$room" || exit 1
for it in a.scm a.sld a.sls a.ss a.txt; do
    : >"$it"
    HOME=$room timeout 60 kak -n -ui dummy -e "source scheme_ls.kak; edit $it; echo -to-file $it.type %opt{filetype}; quit!"
    case $it in
    *.scm | *.sld) wanted=scheme ;;
    *) wanted= ;;
    esac
    if [ "$(cat "$it.type")" != "$wanted" ]; then
        echo "tests/clients/kakoune.sh: $it has the type '$(cat "$it.type")', and not '$wanted'"
        exit 1
    fi
done
echo "tests/clients/kakoune.sh: passed"
