# make test is the gate; make sample runs a season; make install installs the library and the import tool; make bench
# times the library beside ordinary Rust; make fuzz holds it to the reference over inputs that it makes.

export CARGO_TARGET_DIR := $(CURDIR)/build/reference

.PHONY: test sample install uninstall bench fuzz cases examples clean

test:
	@tools/gate.sh

# A season from the meter's log to the planner's summary: LOG=FILE SITE=FILE take another log, SAMPLE=FILE a stick
# that is there already.
LOG := examples/log/barn.csv
SITE := examples/log/barn.toml
SAMPLE := build/$(basename $(notdir $(LOG))).stick
RESULT := build/$(basename $(notdir $(SAMPLE))).result

sample: build/proved
ifeq ($(origin SAMPLE),file)
	build/stick-from-csv $(LOG) $(SITE) $(SAMPLE)
endif
	build/import check $(SAMPLE)
	build/import run $(SAMPLE) $(RESULT)
	build/import summary $(SAMPLE) $(RESULT)
	build/import peak $(SAMPLE)

# What a program needs, the import tool and its manual page go below PREFIX, /usr/local if it is not given, or are taken
# away again; DESTDIR is for those who make packages. Both reach the script through its environment, as they are, so that
# they may have blanks and quotes in them.
install: build/proved
	@tools/install.sh install

uninstall:
	@tools/install.sh uninstall

# The times of the check and of the run beside ordinary Rust; no part of the gate.
bench: target/staticlib/libyesbrulka.a
	@tools/bench.sh

# So many seconds of inputs from a seed, each tried with the archive and with the reference; no part of the gate.
SECONDS := 60
SEED := 1

fuzz: target/staticlib/libyesbrulka.a
	@tools/fuzz.sh $(SECONDS) $(SEED)

# The mark that tools/build.sh leaves when the programs are built over the proved archive, as they always are here.
build/proved: target/staticlib/libyesbrulka.a $(shell find c -name '*.[ch]') $(shell find desk -name '*.py') $(addprefix tools/,build.sh env.sh emulated.in)
	@env -u YB_ARCHIVE tools/build.sh

target/staticlib/libyesbrulka.a: crates.txt $(shell find crates -type f -not -path '*/out/*')
	@tools/archive.sh

# Rewrites the stored cases and answers that rt ci holds the Rattle program to.
cases:
	mkdir -p crates/cases
	cargo run --quiet --release --offline --manifest-path reference/Cargo.toml --bin cases -- \
		crates/cases/stdin crates/cases/stdout

# Rewrites the sample sticks and the sample log.
examples:
	mkdir -p examples/log
	cargo run --quiet --release --offline --manifest-path reference/Cargo.toml --bin sticks -- examples
	desk/sample_log.py examples/log/barn.csv

clean:
	rm -rf build target
