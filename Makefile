# `make erd` proves and builds the program, `make demo` shows its first run, and `make try FILE=..` runs it on a file with no
# proof; `make test` is the gate; `make edits` tries all wrong bodies, of which the gate tries some, and `make mutants` small
# mistakes at random; `make agree` compares the program with the reference program on N random reports and pairs, and `make
# fuzz` gives the C library random inputs; `make bench`, `make bench-instructions` and `make bench-hostile` measure the program.
# `make install` and `make uninstall` put it on this machine and take it away; `make deb` and `make release` make files to hand
# on; `make library` makes the C library, `make portable` the library for other machines, `make page` the page, and `make same`
# builds again and compares, and `make site` makes the pages as HTML. docs/INSTALL.md describes these.
SHELL := /bin/bash
SOURCES := crates.txt $(shell find crates \
    \( -path crates/erd_rows -o -path crates/round_trip -o -path crates/erd_c -o -path crates/lower_uses -o -path crates/uses \) -prune \
    -o -name out -prune -o -name must-fail -prune -o -type f -print)

prefix = $(or $(PREFIX),/usr/local)
bindir = $(prefix)/bin
datarootdir = $(prefix)/share
mandir = $(datarootdir)/man
docdir = $(datarootdir)/doc/erd
bash_completions = $(datarootdir)/bash-completion/completions
zsh_completions = $(datarootdir)/zsh/site-functions
fish_completions = $(datarootdir)/fish/vendor_completions.d

INSTALL_PROGRAM = install -m 755
INSTALL_DATA = install -m 644
DOCUMENTS = CHANGELOG.md LICENSE-MIT LICENSE-APACHE THIRD-PARTY-NOTICES
PAGES = docs/GUIDE.md docs/FIXES.md docs/VENDORS.md docs/PROFILE.md docs/LIMITS.md
# The page for a browser, where it was made. The packages have it, and it is made for them from the library.
PAGE = $(wildcard out/portable/erd.html)
needs_page = $(if $(wildcard out/portable/erd.html out/portable/erd.wasm),,library)
PICTURES = docs/page-same.png docs/page-difference.png docs/page-ballots.png docs/page-faults.png
EXAMPLES = $(wildcard examples/*.json) examples/README.md
SCRIPTS = $(wildcard contrib/*)

# Stops where one of these tools is missing, and names the package that has it.
needs = @packaging/needed.sh $(1)

.PHONY: demo try test edits mutants agree bench bench-instructions bench-hostile round-trip fuzz install uninstall deb tarball release library portable page javascript profiled same site

erd: $(SOURCES)
	$(call needs,rt cc cmp)
	@packaging/build.sh

demo: erd
	@examples/demo.sh

# As root it installs what is missing of packaging/debian-packages.txt, but not with INSTALL=no.
test:
	$(call needs,rt cc cmp python3)
	@INSTALL=$(INSTALL) tests/gate.sh

# FILE=.. is a report, and COMMAND=.. one of canon and check; it is canon where none is given.
try:
	$(call needs,rt cc)
	@packaging/try.sh "$$FILE" "$$COMMAND"

# CRATE=.. and LIST=.. name lists of tests/bodies/lists whose wrong bodies and lines are tried, or one of them as LIST/NAME. With
# neither, all are tried.
edits:
	$(call needs,rt python3)
	@tests/bodies/try_wrong.py $(or $(strip $(CRATE) $(LIST)),bodies lines)

# N=.. small mistakes at random where nothing is proved, by SEED=.., in FILE=.. or in all files, for as many minutes as
# MINUTES=.. says.
mutants: erd portable
	$(call needs,python3 node)
	@tests/bodies/mutants.py --number $(or $(N),100) $(if $(SEED),--seed $(SEED)) $(if $(MINUTES),--minutes $(MINUTES)) $(FILE)

agree: erd
	$(call needs,python3)
	@python3 tests/program/agrees_with_reference.py $(or $(N),2000) $(SEED)

bench: erd round-trip
	$(call needs,python3)
	@python3 tests/measures/time_and_memory.py

bench-instructions: erd round-trip
	$(call needs,python3 valgrind)
	@python3 tests/measures/instructions.py --original

bench-hostile: erd round-trip
	$(call needs,python3)
	@python3 tests/measures/hostile.py

# The program beside which erd is measured.
round-trip:
	$(call needs,rt)
	@mkdir -p out
	@cd crates/round_trip && rt run < stdin > ../../out/round_trip.log 2>&1

# MINUTES=.. is how long, in place of the one minute of the gate.
fuzz: library
	$(call needs,python3)
	@MINUTES=$(MINUTES) tests/fuzz/fuzz.sh

# PROGRAM=.. is the file that is installed, in place of ./erd. Everything in quotes, since a prefix may have a blank.
install: erd
	$(call needs,python3)
	install -d "$(DESTDIR)$(bindir)" "$(DESTDIR)$(mandir)/man1" "$(DESTDIR)$(bash_completions)" "$(DESTDIR)$(zsh_completions)" \
	    "$(DESTDIR)$(fish_completions)" "$(DESTDIR)$(docdir)/docs" "$(DESTDIR)$(docdir)/examples" "$(DESTDIR)$(docdir)/contrib"
	$(INSTALL_PROGRAM) "$(or $(PROGRAM),erd)" "$(DESTDIR)$(bindir)/erd"
	$(INSTALL_DATA) docs/erd.1 "$(DESTDIR)$(mandir)/man1/erd.1"
	$(INSTALL_DATA) $(DOCUMENTS) "$(DESTDIR)$(docdir)"
	umask 022 && python3 packaging/pages_apart.py --beside examples --beside contrib "$(DESTDIR)$(docdir)/docs" $(PAGES)
	$(if $(PAGE),$(INSTALL_DATA) $(PAGE) "$(DESTDIR)$(docdir)")
	$(INSTALL_DATA) $(EXAMPLES) "$(DESTDIR)$(docdir)/examples"
	$(INSTALL_DATA) $(SCRIPTS) "$(DESTDIR)$(docdir)/contrib"
	$(INSTALL_DATA) packaging/completions/erd.bash "$(DESTDIR)$(bash_completions)/erd"
	$(INSTALL_DATA) packaging/completions/_erd "$(DESTDIR)$(zsh_completions)/_erd"
	$(INSTALL_DATA) packaging/completions/erd.fish "$(DESTDIR)$(fish_completions)/erd.fish"

# Takes away the files of `make install`, and of its folders those of erd alone.
uninstall:
	rm -f "$(DESTDIR)$(bindir)/erd" "$(DESTDIR)$(mandir)/man1/erd.1"
	cd "$(DESTDIR)$(docdir)" 2> /dev/null && rm -f erd.html $(DOCUMENTS) $(PAGES) $(PICTURES) $(EXAMPLES) $(SCRIPTS) || true
	rm -f "$(DESTDIR)$(bash_completions)/erd" "$(DESTDIR)$(zsh_completions)/_erd" "$(DESTDIR)$(fish_completions)/erd.fish"
	rmdir "$(DESTDIR)$(docdir)/docs" "$(DESTDIR)$(docdir)/examples" "$(DESTDIR)$(docdir)/contrib" "$(DESTDIR)$(docdir)" \
	    2> /dev/null || true

deb: erd $(needs_page)
	$(call needs,dpkg-deb dpkg-shlibdeps gzip)
	@packaging/deb.sh

tarball: erd $(needs_page)
	$(call needs,tar gzip)
	@packaging/tarball.sh

release: erd library
	$(call needs,rt cc ar dpkg-deb dpkg-shlibdeps tar gzip sha256sum python3)
	@packaging/release.sh

library:
	$(call needs,rt cc ar)
	@packaging/library.sh

# packaging/debian-packages.txt names the packages that this needs; each script of packaging/portable says which.
portable: library
	$(call needs,rt cc ar python3)
	@packaging/portable/make.sh

# The page and the package for JavaScript have out/portable/erd.wasm in them.
page: library
	$(call needs,python3)
	@packaging/portable/wasm.sh
	@python3 web/build.py out/portable/erd.wasm

# All pages as HTML with the conformance suite and, where they have been made, the page and the sums of a release, in out/site.
site:
	$(call needs,pandoc python3)
	@packaging/conformance.sh
	@python3 packaging/site.py

javascript: library
	$(call needs,npm)
	@packaging/portable/wasm.sh
	@packaging/portable/javascript.sh

# The program as a release has it, compiled once more with a profile: out/profiled/erd.
profiled: erd
	$(call needs,rt)
	@packaging/profiled.sh erd

same: erd library
	@tests/forms/same_bytes.sh
