# Builds, tests, packs and installs scheme_ls.
#
#   make                         proves and builds the program, where it is missing or older than its sources
#   make test                    the whole gate
#   make install PREFIX=/usr     installs the program, the man page, the pages of docs/profile, the examples and the editors' files
#                                below PREFIX (/usr/local)
#   make uninstall PREFIX=/usr   takes them away again
#   make dist                    packs what `make install` installs into DIST (out/) as scheme_ls-COMMIT-SYSTEM.tar.gz, with its
#                                sum beside it: so one machine proves, and others only unpack
#
# DESTDIR stands before each path, for packages. PROGRAM is what is installed as the program; where it isn't set the program is
# built first, if it is missing or older than its sources. What is installed needs nothing of this repository.

PREFIX = /usr/local
DESTDIR =
DIST = out
PROGRAM = crates/scheme_ls/out/scheme_ls
INSTALL = install

bin = $(DESTDIR)$(PREFIX)/bin
man = $(DESTDIR)$(PREFIX)/share/man/man1
share = $(DESTDIR)$(PREFIX)/share/scheme_ls
pages = docs/profile/arrows.md docs/profile/diagnostics.md docs/profile/includes.md docs/profile/outside.md docs/profile/reading.md \
	docs/profile/session.md
examples = examples/first.scm examples/main.scm examples/mistakes.scm examples/my-or.scm examples/quoted.scm examples/stack.sld
editors = editors/README.md \
	editors/emacs/README.md editors/emacs/scheme-ls.el editors/emacs/scheme-ls-renames.el \
	editors/helix/README.md editors/helix/languages.toml \
	editors/kakoune/README.md editors/kakoune/kak-lsp.toml editors/kakoune/scheme_ls.kak \
	editors/neovim/README.md editors/neovim/scheme_ls.lua editors/neovim/scheme_ls_renames.lua \
	editors/vscode/README.md editors/vscode/extension.js editors/vscode/language-configuration.json editors/vscode/package.json

all crates/scheme_ls/out/scheme_ls:
	bin/scheme_ls arrows </dev/null

test:
	.ci/run

install: $(PROGRAM)
	$(INSTALL) -d "$(bin)" "$(man)"
	$(INSTALL) -m 755 "$(PROGRAM)" "$(bin)/scheme_ls"
	$(INSTALL) -m 644 docs/scheme_ls.1 "$(man)/scheme_ls.1"
	for it in $(pages) $(examples) $(editors); do \
		$(INSTALL) -D -m 644 "$$it" "$(share)/$$it" || exit 1; \
	done

uninstall:
	rm -f "$(bin)/scheme_ls" "$(man)/scheme_ls.1"
	rm -rf "$(share)"

# The same files make the same archive, byte by byte.
dist: $(PROGRAM)
	@set -e; \
	commit=$$(git describe --always --dirty --exclude='*' 2>/dev/null || echo unknown); \
	name=scheme_ls-$$commit-$$(uname -s | tr A-Z a-z)-$$(uname -m); \
	room=$$(mktemp -d); \
	trap 'rm -rf "$$room"' EXIT; \
	$(MAKE) -s install DESTDIR="$$room/$$name" PREFIX= PROGRAM="$(PROGRAM)"; \
	mkdir -p "$(DIST)"; \
	tar -C "$$room" --sort=name --owner=0 --group=0 --numeric-owner --mtime=@0 -cf - "$$name" | gzip -9n >"$(DIST)/$$name.tar.gz"; \
	cd "$(DIST)"; \
	sha256sum "$$name.tar.gz" >"$$name.tar.gz.sha256"; \
	cat "$$name.tar.gz.sha256"

.PHONY: all test install uninstall dist crates/scheme_ls/out/scheme_ls
