# For people: `make` builds the program, `make demo` shows it, `make test` is the gate.
#
# Needs the Rattle kit, whose command is `rt`. Only a proved crate is built, so the first `make`
# proves every crate, which takes about half an hour on four processors; after an edit only what
# changed is proved again. `bench` needs Python 3; `compare` and `outside` need Python 3.11.

SHELL := /bin/bash
.SHELLFLAGS := -euo pipefail -c

RT ?= rt
JOBS ?= $(shell nproc 2>/dev/null || echo 2)
PREFIX ?= /usr/local

SOURCES := crates.txt $(shell find crates -path '*/out' -prune -o -type f \( -name '*.rt' -o -name '*.antt' \) -print)

.PHONY: all demo test compare outside bench install uninstall clean

all: build/adbank
	@echo 'The program is build/adbank; `make demo` shows what it does.'

# What shows how far a check is, and what is wrong; all of it goes to a log.
PROGRESS := bash tools/progress.sh crates.txt

# `rt run` proves, compiles and links the program, and leaves it in the crate's folder out/. It is
# run once on the way, on one period of a sine.
build/adbank: $(SOURCES)
	@bash tools/check_kit.sh '$(RT)' README.md
	@mkdir -p build
	@echo "This proves $$(grep -c '^[a-z]' crates.txt) crates, $(JOBS) at a time, and then builds the program."
	@echo 'From nothing it takes about half an hour on four processors; later only what changed is proved.'
	@$(RT) all check --jobs $(JOBS) 2>&1 | tee build/check.log | $(PROGRESS) || \
	    { echo 'Not all crates are proved; the whole log is build/check.log.' >&2; exit 1; }
	@echo 'Building the program, a minute or two.'
	@sh examples/sine.sh >build/sine.raw
	@(cd crates/adbank && $(RT) run -- block ../../build/sine.raw ../../build/sine.brr) 2>&1 | tee build/build.log | $(PROGRESS) || \
	    { echo 'The program is not built; the whole log is build/build.log.' >&2; exit 1; }
	@cp crates/adbank/out/adbank $@

# Three sounds become a bank of each format; each bank is checked, one sound of each plays, and the banks are taken apart
# again; of short turns the best blocks are found, a number's sounds are compiled, and one period of a sine becomes one block.
demo: build/adbank
	@mkdir -p build/demo
	@cp examples/bank.toml examples/playstation.toml examples/wave.toml examples/turns.toml examples/*.wav build/demo
	@sh examples/sine.sh >build/demo/sine.raw
	@cd build/demo; for words in 'compile bank.toml' 'check bank.toml' 'bound bank.toml 500' 'play brr bank.img 2 12' 'decompile brr bank.img bank' \
	    'compile playstation.toml' 'check playstation.toml' 'bound playstation.toml 500' 'play vag playstation.pluck.vag 0 12' \
	    'decompile vag playstation.pluck.vag pluck' 'compile wave.toml' 'check wave.toml' 'play ima wave.vowel.wav 0 12' \
	    'decompile ima wave.vowel.wav vowel' 'compile turns.toml' 'check turns.toml' 'make 0' 'block sine.raw sine.brr'; do \
	  echo "$$ adbank $$words"; ../adbank $$words; done
	@echo 'Sources, the banks, the first passes, the certificates, what was taken apart and the block lie in build/demo.'

# Every example, each with its command and what it prints, which must be its report.
.PHONY: examples
examples: build/adbank
	@mkdir -p build/examples
	@cp examples/*.toml examples/*.wav build/examples
	@cd build/examples; for manifest in *.toml; do \
	  echo "$$ adbank compile $$manifest"; ../adbank compile "$$manifest" | tee "$${manifest%.toml}.report"; done
	@for report in examples/*.report; do cmp "$$report" "build/$$report"; done

# Pictures of the examples' sounds, and of what is done to a loop.
.PHONY: pictures
pictures: build/adbank
	@mkdir -p build/pictures
	@cp examples/*.toml examples/*.wav build/pictures
	@cd build/pictures; python3 -B ../../tools/pictures sounds.toml --into ../../docs/pictures
	@python3 -B tools/pictures --loops --into docs/pictures

# How long the built program takes on generated inputs, as a table.
bench: build/adbank
	@python3 bench/run.py

# Whole banks, byte for byte beside those of a plain compiler that shares nothing with this one. The
# data of the program's stored run are an example's.
compare: build/adbank outside
	@cmp examples/tone.toml crates/adbank/data/tone.toml
	@cmp examples/tone.wav crates/adbank/data/tone.wav
	@python3 -B tests/outside/compare_banks.py build/adbank

# Damaged files and words, each run compared with the plain programs, for so many seconds; SEED repeats a run.
SECONDS ?= 60
.PHONY: fuzz
fuzz: build/adbank
	@python3 -B tests/outside/fuzz.py build/adbank $(SECONDS) $(SEED)

# What stands beside the program, each thing by a test of its own in plain Python.
outside: build/adbank
	@for test in tests/outside/test_*.py; do echo "$$test"; python3 -B "$$test" build/adbank; done

# The merge gate: the proofs, the edits that must be refused, the tests and the program's run.
test:
	$(RT) ci

# Where the program, its manual page, what the page refers to, and the completions go.
BIN = $(DESTDIR)$(PREFIX)/bin
SHARE = $(DESTDIR)$(PREFIX)/share
MAN = $(SHARE)/man/man1
DOC = $(SHARE)/doc/adbank
BASH_COMPLETION = $(SHARE)/bash-completion/completions
ZSH_COMPLETION = $(SHARE)/zsh/site-functions

install: build/adbank
	install -d '$(BIN)' '$(MAN)' '$(DOC)' '$(BASH_COMPLETION)' '$(ZSH_COMPLETION)'
	install -m 755 build/adbank '$(BIN)/adbank'
	install -m 644 adbank.1 '$(MAN)/adbank.1'
	install -m 644 docs/FORMATS.md docs/DECISIONS.md '$(DOC)'
	install -m 644 completion/adbank.bash '$(BASH_COMPLETION)/adbank'
	install -m 644 completion/adbank.zsh '$(ZSH_COMPLETION)/_adbank'

# Folders that others may use stay.
uninstall:
	rm -f '$(BIN)/adbank' '$(MAN)/adbank.1' '$(DOC)/FORMATS.md' '$(DOC)/DECISIONS.md'
	rm -f '$(BASH_COMPLETION)/adbank' '$(ZSH_COMPLETION)/_adbank'
	rmdir '$(DOC)' 2>/dev/null || true

clean:
	rm -rf build
