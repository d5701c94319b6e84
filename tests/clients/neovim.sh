#!/bin/sh
# Drives the built program with the language client of Neovim, headless, and with the file of editors/neovim: the steps of
# questions.json (answers to all that is asked), libraries.json (what is open at the server), renames.json (renames, and what is said
# where one is refused) and cancellations.json (requests that are cancelled), each in a Neovim of its own with a shutdown at the end, and a
# server that ends at once. What was sent is looked through by `wire`. The program stands on the PATH as `scheme_ls`, so the file of
# editors/neovim starts it by its own words. It is skipped where Neovim or the built program is missing. SCHEME_LS names another program,
# if it is set; where SESSION_FILE is set, a session is being recorded, and there are the steps of questions.json alone, with `serve`.

top=$(cd "$(dirname "$0")/../.." && pwd) || exit 1
here=$top/tests/clients
program=${SCHEME_LS:-$top/crates/scheme_ls/out/scheme_ls}

if ! command -v nvim >/dev/null 2>&1; then
    echo "tests/clients/neovim.sh: skipped, nvim isn't installed"
    exit 0
fi
if [ ! -x "$program" ]; then
    echo "tests/clients/neovim.sh: skipped, $program isn't built"
    exit 0
fi

room=$(mktemp -d) || exit 1
trap 'rm -rf "$room"' EXIT
mkdir "$room/bin"

# A Neovim of nobody's, in the folder $1.
run_nvim() {
    mkdir -p "$room/home" "$room/$1" && cd "$room/$1" || exit 1
    shift
    HOME=$room/home XDG_CACHE_HOME=$room/home XDG_DATA_HOME=$room/home XDG_STATE_HOME=$room/home \
        timeout 300 nvim --clean --headless -n "$@" -c "cquit 1"
}

# The steps of $1, with the program $2; with `serve` of the program $3, where it is told. Neovim goes on after an error of a callback, so
# what it says is looked through.
run_steps() {
    ln -sf "$2" "$room/bin/scheme_ls"
    PATH=$room/bin:$PATH HERE=$here ROOM=$room/texts-$1 STEPS=$1.json RECORDED=$3 run_nvim "texts-$1" -c "luafile $here/neovim.lua" >"$room/said" 2>&1
    if [ $? -ne 0 ] || grep -q 'Error ' "$room/said"; then
        cat "$room/said"
        exit 1
    fi
    grep -o 'tests/clients/neovim.lua: .* steps passed' "$room/said"
}

if [ -n "$SESSION_FILE" ]; then
    run_steps questions "$program" "$program"
    exit
fi
for it in questions libraries renames cancellations; do
    SESSION_SERVER=$program SESSION_FILE=$room/$it.session run_steps $it "$top/tests/sessions/proxy" || exit
    "$here/wire" "$room/$it.session" || exit
done

printf '#!/bin/sh\necho started >>"%s/starts"\nexit 3\n' "$room" >"$room/dies"
chmod +x "$room/dies"
: >"$room/starts"
run_nvim texts-dies -c "lua vim.g.scheme_ls_cmd = { '$room/dies' }" -c "luafile $top/editors/neovim/scheme_ls.lua" \
    -c "edit a.scm" -c "edit b.scm" -c "lua vim.wait(20000, function() return #vim.fn.readfile('$room/starts') >= 5 end)" \
    -c "lua vim.wait(1000, function() return false end)" -c "quitall!" >"$room/said" 2>&1
starts=$(wc -l <"$room/starts")
if [ "$starts" -ne 5 ]; then
    echo "tests/clients/neovim.sh: a server that ends at once was started $starts times, and not 5"
    cat "$room/said"
    exit 1
fi
echo "tests/clients/neovim.sh: a server that ends at once was started 5 times"
