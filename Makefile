# make demo: a search over a shipped history by a command that takes half a second, four commits at once, with a program
#   that is built without its proofs
# make install PREFIX=FOLDER: proves and builds the program, and puts it into FOLDER/bin, with git farmdawn, whose modules go into
#   FOLDER/lib/farmdawn, the scripts, the manual pages and the shells' completions
# make uninstall PREFIX=FOLDER: removes what was installed
# make dist: packs the program that make install or make test built, PROGRAM, into DIST, for machines without the kit
# make deb: the same as a package of Debian; packaging/Containerfile makes an image of that
# make wheel: the same for pip and pipx
# make test: the merge gate (docs/CHANGING.md): every proof, must-fail edit, test and program of this checkout, and make check
# make check: the tests of git farmdawn, of the scripts and of the pages
# make check-model: those of git farmdawn, over a model of what it asks the program (docs/DRIVER.md)
# make bench: what the programs cost, at small sizes (benches/bench.py has the others)
PREFIX ?= /usr/local
PROGRAM ?= crates/farmdawn/out/farmdawn
DIST ?= dist

# the Python that compiles the modules of git farmdawn where they are installed; without it each start takes a tenth of a second more
PYTHON ?= /usr/bin/python3

SCRIPTS = farmdawn-srun farmdawn-ssh
# the pages for those who use it; links to others are taken out of them where they are packed
USERS = USING SEVERAL TRUST CI CONTAINERS SERVE PROVED MEASURED
PAGES = farmdawn git-farmdawn $(SCRIPTS)
# what earlier versions installed beside these
OLD_PARTS = farmdawn-worktree farmdawn-part farmdawn-history farmdawn-progress farmdawn-needed farmdawn-certificate farmdawn-report
LIB = $(DESTDIR)$(PREFIX)/lib/farmdawn
BIN = $(DESTDIR)$(PREFIX)/bin
MAN = $(DESTDIR)$(PREFIX)/share/man/man1
BASH_COMPLETIONS = $(DESTDIR)$(PREFIX)/share/bash-completion/completions
ZSH_COMPLETIONS = $(DESTDIR)$(PREFIX)/share/zsh/site-functions
FISH_COMPLETIONS = $(DESTDIR)$(PREFIX)/share/fish/vendor_completions.d
FISH_BEGIN = $(DESTDIR)$(PREFIX)/share/fish/vendor_conf.d/git-farmdawn.fish

.PHONY: demo install needs-kit install-scripts install-pages uninstall dist deb wheel test check check-model bench
demo:
	cd crates/farmdawn && rt try --data test.sh=../../demo/test.sh --data broken=../../demo/broken -- \
		run --workers 4 main v1.0 -- sh test.sh < ../../demo/stream

install: needs-kit install-scripts
	cd crates/farmdawn && rt run -- --version
	install -D -m 755 crates/farmdawn/out/farmdawn "$(BIN)/farmdawn"

# said before anything is installed
needs-kit:
	@command -v rt >/dev/null || { echo 'rt, the kit that builds farmdawn, is not installed; nothing was installed' >&2 && exit 1; }

install-scripts:
	for script in $(SCRIPTS); do install -D -m 755 tools/$$script "$(BIN)/$$script" || exit 1; done
	install -D -m 755 driver/bin/git-farmdawn "$(BIN)/git-farmdawn"
	for name in $(OLD_PARTS); do rm -f "$(BIN)/$$name"; done
	rm -rf "$(LIB)/git_farmdawn"
	for file in $$(cd driver && find git_farmdawn -name '*.py'); do install -D -m 644 driver/$$file "$(LIB)/$$file" || exit 1; done
	[ -z "$(PYTHON)" ] || ! command -v "$(PYTHON)" >/dev/null || "$(PYTHON)" -I -m compileall -q "$(LIB)/git_farmdawn"
	for page in $(PAGES); do install -D -m 644 man/$$page.1 "$(MAN)/$$page.1" || exit 1; done
	for name in farmdawn git-farmdawn; do \
		install -D -m 644 completions/farmdawn.bash "$(BASH_COMPLETIONS)/$$name" && \
		install -D -m 644 completions/_$$name "$(ZSH_COMPLETIONS)/_$$name" && \
		install -D -m 644 completions/$$name.fish "$(FISH_COMPLETIONS)/$$name.fish" || exit 1; \
	done
	install -D -m 644 completions/git-farmdawn.conf.fish "$(FISH_BEGIN)"

install-pages:
	install -d -m 755 "$(PAGES_FOLDER)"
	others=$$(cd docs && echo *.md | tr ' ' '\n' | sed 's/[.]md$$//' | grep -vxE "$$(echo $(USERS) | tr ' ' '|')" | paste -s -d '|') && \
	for page in $(USERS); do \
		sed -z -E "s/\[([^][]*)\]\(($$others)[.]md[^)]*\)/\1/g" docs/$$page.md >"$(PAGES_FOLDER)/$$page.md" || exit 1; \
	done
	install -m 644 docs/practice.sh "$(PAGES_FOLDER)"
	install -D -m 644 -t "$(PAGES_FOLDER)/pictures" docs/pictures/*.png

uninstall:
	for name in $(PAGES) $(OLD_PARTS); do rm -f "$(BIN)/$$name" "$(MAN)/$$name.1"; done
	for name in farmdawn git-farmdawn; do \
		rm -f "$(BASH_COMPLETIONS)/$$name" "$(ZSH_COMPLETIONS)/_$$name" "$(FISH_COMPLETIONS)/$$name.fish"; \
	done
	rm -f "$(FISH_BEGIN)"
	rm -rf "$(LIB)/git_farmdawn"
	[ ! -d "$(LIB)" ] || rmdir --ignore-fail-on-non-empty "$(LIB)"

dist:
	sh packaging/make-dist "$(PROGRAM)" "$(DIST)"

deb:
	sh packaging/make-deb "$(PROGRAM)" "$(DIST)"

wheel:
	python3 packaging/make-wheel "$(PROGRAM)" "$(DIST)"

test:
	bash .ci/run

check:
	python3 tests/check.py

check-model: export FARMDAWN_PROGRAM = $(abspath $(PROGRAM))
check-model: export FARMDAWN = $(CURDIR)/driver/model/farmdawn
check-model:
	python3 tests/check.py driver/tests git-farmdawn report certificate telling needed cost

bench:
	python3 benches/bench.py all --quick
