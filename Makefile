# The simulator of Tera MTA streams. All targets but install, uninstall and clean need the command rt of the Rattle kit.
PREFIX ?= /usr/local
SHARE = $(DESTDIR)$(PREFIX)/share
SIM = crates/mta_sim/out/mta_sim
LAB = crates/mta_lab/out/mta_lab
# draft: the tests run on the drafts in out/draft, not on the programs that were proved and built
PROGRAM ?=
export PROGRAM
# which programs make draft and make build build, both without any
PROGRAMS ?=
# the beginnings of the names of the tables that make cases runs, all without any
CASES ?=
# what make try shows: a source text, and a schedule of it
SOURCE ?= examples/lock.asm
SCHEDULE ?= examples/lock.lost_update.schedule
# the crates whose edits make edits tries, all of them without any; those that make prove and make affected are asked of
CRATES ?=
# on how many processors make fits computes the gate
PROCESSORS ?= 2
# how many crates' edits are tried side by side
JOBS ?= $(shell nproc)

# the targets that can be asked of drafts
OF_DRAFTS = cases documents spaces hostile refuse bench pages editors recipes draft
ifneq ($(PROGRAM),)
ifneq ($(filter-out $(OF_DRAFTS),$(or $(MAKECMDGOALS),help)),)
$(error PROGRAM=$(PROGRAM) goes with $(OF_DRAFTS); all other targets take what is proved)
endif
endif

.PHONY: help draft run run-lab try test prove cases checks trust minutes crates affected fits edits refuse hostile spaces pages editors recipes documents bench build built built-calls dist check-dist install uninstall clean

# the targets, each with what it does and how long it takes
help:
	@echo "make try        runs a SOURCE by a SCHEDULE with both programs, unproved (two minutes); examples/lock.asm if none is named"
	@echo "make draft      builds both programs UNPROVED in out/draft, or the PROGRAMS that are named (some six minutes)"
	@echo "                cases, documents, spaces, hostile, refuse, pages, editors, recipes and bench run on them with PROGRAM=draft"
	@echo "make run        proves and builds mta_sim, and shows a first run (49 processor minutes)"
	@echo "make run-lab    the same of mta_lab (369 processor minutes)"
	@echo "make test       proves all that is shipped, tries the edits in must-fail/, runs all tests (400 processor minutes from nothing; ANEW=1: nothing that is kept counts)"
	@echo "make prove      proves the CRATES and those that they stand on, as make test does (docs/ARCHITECTURE.md has the minutes of each)"
	@echo "make checks     what make test tests before any proof (a minute)"
	@echo "make trust      writes out/TRUST.md, the definitions that a reader has to trust (seconds)"
	@echo "make cases      runs the cases below tests/cases on the built program (some minutes); CASES=\"debug/ run/lists\": those of these tables"
	@echo "make documents  runs the commands of the documents and compares what they print (seconds)"
	@echo "make minutes    writes the table of what a check costs into docs/ARCHITECTURE.md, of what make test left in out/ (a second)"
	@echo "make crates     writes the table of crates into docs/ARCHITECTURE.md, of crates.txt and the crates' README.md (a second)"
	@echo "make affected   which crates a change of the CRATES proves again, and their minutes (a second)"
	@echo "make fits       how long make test takes from nothing on PROCESSORS processors, 2 if none are named: computed, not measured (a second)"
	@echo "make edits      tries the edits of the CRATES that the prover has to refuse, of all crates if none is named (half a minute an edit, and as much as half a crate's proof for its first)"
	@echo "make dist       packs the built programs as an archive and a Debian package, in out/dist (seconds)"
	@echo "make check-dist unpacks them next to nothing but the C library, and runs the examples there (seconds)"
	@echo "make hostile    hostile use of the built program; needs Python 3 and a C compiler (11 minutes on two cores, with other work)"
	@echo "make refuse     the part of it that refuses each allocation of the commands in turn (some minutes)"
	@echo "make spaces     compares mta_lab on 15,000 random programs with a search, and steps, by a machine of the tests' own; what play says needs Node (some twelve minutes)"
	@echo "make pages      the pages in a browser; needs chromium, its driver and Python's selenium, and says what is missing (some minutes)"
	@echo "make editors    the syntax files, asked by the editors that read them; mta_lab lsp by their clients; mta_lab dap by a client that others' library makes. Says what is missing (seconds)"
	@echo "make recipes    recipes of docs/GRADING.md that take a bare system, a cluster or a spreadsheet: debootstrap's root, Slurm, LibreOffice. Says what is missing (a minute)"
	@echo "make bench      time, instructions and peak memory on the longest inputs, and of whole classes (some minutes; valgrind counts instructions)"
	@echo "make install    puts the built programs, their examples and documents under PREFIX, $(PREFIX) (a second)"
	@echo "make uninstall  takes away what make install has put there (a second)"
	@echo "make clean      removes all that was built, and what checks keep of it in the crates (a second)"

# builds the programs unproved, side by side
draft:
	@tests/draft.sh $(PROGRAMS)

# proves and builds mta_sim, and shows a first run
run:
	@tests/build.sh mta_sim
	@echo "== first run: mta_sim words, on these program words (LIT r1, 5 and ADD r2, r1, 3)"
	@cat crates/mta_sim/stdin
	@echo "== the stream after two steps"
	@$(SIM) words < crates/mta_sim/stdin

# proves and builds mta_lab, and shows the run of an example in words
run-lab:
	@tests/build.sh mta_lab
	@echo "== first run: mta_lab view, on the lock example and a schedule by which an update is lost"
	@$(LAB) view examples/lock.asm examples/lock.lost_update.schedule

# runs a source text by a schedule, and two program words, unproved
try:
	@tests/try.sh "$(SOURCE)" "$(SCHEDULE)"

# proves all that is shipped from nothing, tries the must-fail edits, runs the tests, the programs, the cases, the documents
test:
	@tests/gate.sh

# proves the CRATES and those that they stand on as make test does, with their tests
prove:
	@test -n "$(CRATES)" || { echo 'make prove CRATES="NAME .."'; exit 1; }
	@tests/proofs.sh $(CRATES)

# what needs no proof
checks:
	@tests/first_checks.sh

# writes out/TRUST.md: which definitions a reader of the contracts has to trust
trust:
	@python3 tests/trust

# writes the table of what a check costs into docs/ARCHITECTURE.md, of what make test has left in out/
minutes:
	@python3 tests/minutes.py table

# writes the table of crates into docs/ARCHITECTURE.md, of crates.txt and the crates' README.md
crates:
	@python3 tests/crates.py table

# which crates a change of the CRATES proves again, and how long that takes
affected:
	@python3 tests/minutes.py affected $(CRATES)

# how long the gate takes on so many processors, computed from the table of what a check costs
fits:
	@python3 tests/minutes.py fits $(PROCESSORS)

# proves and builds the PROGRAMS that were not built of the files that are here
build:
	@tests/build.sh $(PROGRAMS)

# what the targets below begin with: where no program lies here, both are built now. One that lies here is never built anew
# unasked: each of them stops with a sentence if it was not built of the files that are here.
built:
	@! tests/built.sh none || tests/$(or $(PROGRAM),build).sh
built-calls: built
	@! tests/built.sh none library_calls || tests/$(or $(PROGRAM),build).sh library_calls

# the cases below tests/cases, on the built program
cases: built
	@python3 tests/runner $(CASES)

# tries the edits of must-fail/ and edits/, JOBS crates at a time
edits:
	@python3 tests/edits.py --jobs $(JOBS) $(CRATES)

# packs the built programs; takes git, binutils and the kit, and dpkg-deb for the Debian package
dist: built
	@packaging/package.sh

# tries the packages; takes root's rights, or a namespace of users
check-dist:
	@tests/package.sh

# wall time and peak memory of the commands on their longest inputs and on classes, and machine steps a second
bench: built-calls
	@bench/run.sh

# refuses each allocation of the commands in turn, on the examples and the programs of tests/cases, and of most calls
# of the libraries that take memory
refuse: built-calls
	@python3 tests/hostile allocations calls

# that, and damaged images, random texts, inputs at their limits and beyond, threads that are not started, the lines of
# the debugger, inputs and outputs that fail
hostile: built-calls
	@python3 tests/hostile

# random programs: a search of all states by a machine of the tests' own is compared with what explore, grade and survey
# say, and with what check warns about; a second reading of what a step did with what view and play say. What play says
# takes Node, and comes last
spaces: built
	@python3 tests/spaces
	@python3 tests/spaces/slips.py
	@python3 tests/spaces/text_slips.py
	@python3 tests/spaces/sentences.py
	@python3 tests/spaces/loops.py
	@python3 tests/spaces/starving.py
	@python3 tests/spaces/leading.py
	@python3 tests/spaces/overtaking.py
	@python3 tests/spaces/said_by_play.py

# what Vim, Neovim, Emacs, Pygments and pandoc take each part of a source text for; then what the clients of Neovim, Emacs and
# VS Code show of mta_lab lsp, and mta_lab dap by a client of the Debug Adapter Protocol on a library that others wrote
editors:
	@python3 tests/editor_files.py
	@python3 tests/language_clients
	@tests/adapter_go/run.sh

# recipes of docs/GRADING.md that take more than the program: Gradescope's in a bare Debian (DEBIAN=FOLDER: what debootstrap has
# made there), an array of Slurm on one node, tables in LibreOffice; those that need nothing else are run by make cases
recipes: built
	@python3 tests/recipes

# the pages in headless Chromium: their states, controls, texts, sizes and widths; installs nothing. Without a browser
# python3 tests/pages --node asks what they say
pages:
	@python3 tests/pages

# the commands that stand in README.md and docs, run on the examples; what they print is compared with what stands there
documents: built
	@tests/documents.sh README.md CONTRIBUTING.md CHANGELOG.md docs/*.md

# puts the built programs, their examples and documents in place
install:
	@tests/built.sh ask
	install -D -m 755 $(SIM) $(DESTDIR)$(PREFIX)/bin/mta_sim
	install -D -m 755 $(LAB) $(DESTDIR)$(PREFIX)/bin/mta_lab
	install -D -m 644 share/man/man1/mta_sim.1 $(SHARE)/man/man1/mta_sim.1
	install -D -m 644 share/man/man1/mta_lab.1 $(SHARE)/man/man1/mta_lab.1
	packaging/date_pages.sh $(SHARE)/man/man1 "$$(git log -1 --format=%ct)"
	install -D -m 644 share/completions/mta_sim.bash $(SHARE)/bash-completion/completions/mta_sim
	install -D -m 644 share/completions/mta_lab.bash $(SHARE)/bash-completion/completions/mta_lab
	install -D -m 644 share/completions/_mta_sim $(SHARE)/zsh/site-functions/_mta_sim
	install -D -m 644 share/completions/_mta_lab $(SHARE)/zsh/site-functions/_mta_lab
	install -D -m 644 share/completions/mta_sim.fish $(SHARE)/fish/vendor_completions.d/mta_sim.fish
	install -D -m 644 share/completions/mta_lab.fish $(SHARE)/fish/vendor_completions.d/mta_lab.fish
	install -D -m 644 share/completions/mta_lab.rlwrap $(SHARE)/rlwrap/completions/mta_lab
	install -d $(SHARE)/mta_sim/schema
	install -m 644 share/schema/*.json share/schema/*.xsd $(SHARE)/mta_sim/schema
	install -d $(SHARE)/doc/mta_sim/docs
	cp -r examples exercises editors $(SHARE)/doc/mta_sim
	rm -r $(SHARE)/doc/mta_sim/editors/make
	install -d $(SHARE)/vim/vimfiles $(SHARE)/nvim/site
	cp -r editors/vim/. $(SHARE)/vim/vimfiles
	cp -r editors/vim/. $(SHARE)/nvim/site
	install -D -m 644 editors/emacs/mta-mode.el $(SHARE)/emacs/site-lisp/mta-mode.el
	install -D -m 644 editors/kate/mta.xml $(SHARE)/org.kde.syntax-highlighting/syntax/mta.xml
	install -m 644 README.md CONTRIBUTING.md CHANGELOG.md $(SHARE)/doc/mta_sim
	install -m 644 docs/*.md $(SHARE)/doc/mta_sim/docs
	test ! -e out/TRUST.md || install -m 644 out/TRUST.md $(SHARE)/doc/mta_sim/docs
	install -d $(SHARE)/doc/mta_sim/docs/images
	install -m 644 docs/images/*.png $(SHARE)/doc/mta_sim/docs/images

uninstall:
	rm -f $(DESTDIR)$(PREFIX)/bin/mta_sim $(SHARE)/man/man1/mta_sim.1 $(SHARE)/bash-completion/completions/mta_sim
	rm -f $(DESTDIR)$(PREFIX)/bin/mta_lab $(SHARE)/man/man1/mta_lab.1 $(SHARE)/bash-completion/completions/mta_lab
	rm -f $(SHARE)/zsh/site-functions/_mta_sim $(SHARE)/fish/vendor_completions.d/mta_sim.fish
	rm -f $(SHARE)/zsh/site-functions/_mta_lab $(SHARE)/fish/vendor_completions.d/mta_lab.fish
	rm -f $(SHARE)/rlwrap/completions/mta_lab
	for folder in vim/vimfiles nvim/site; do \
	  for file in ftdetect/mta.vim ftplugin/mta.vim syntax/mta.vim compiler/mta_lab.vim; do rm -f $(SHARE)/$$folder/$$file; done; \
	done
	rm -f $(SHARE)/emacs/site-lisp/mta-mode.el $(SHARE)/org.kde.syntax-highlighting/syntax/mta.xml
	rm -rf $(SHARE)/doc/mta_sim $(SHARE)/mta_sim

clean:
	rm -rf out crates/*/out
