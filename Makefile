# make demo   runs the tape program on a sample of quotes and shows the best prices in a table
# make test   proves everything, tries every must-fail edit, reads the machine code, runs the examples in C, C++, Python and Rust and the Rust tests
# make lib    proves the library, writes it for C, C++, Rust and Python to link, and says how
# make install PREFIX=..   installs header, static and shared library, pkg-config and CMake files and the Python module (DESTDIR is put in front)
# make reproduce   builds the library twice, in two folders, and compares the two by hash: twice some minutes
# make bench  measures the library beside the second implementation, and the walk of a page beside the same walk in C
# make command   builds the execution reviewer's command, rust/target/release/quotebook (docs/REVIEWING.md)
# make sample   writes the command's sample recording and a router's log to target/sample
# make long-audit   has the command audit a recording of MESSAGES=10000000 messages, and shows its time and memory
# make bench-shelf   measures shelves of books: 64 to 6,400 symbols, one thread and several
# make shelf-mistakes   plants mistakes in the shelf, one at a time: its tests have to find each
# make fuzz   compares library, engine and reviewer on a million random calls, and the writers: make fuzz CALLS=5000000 SEED=7
# make damaged-pages   compares the entries of 200,000 damaged pages with a plain walk of every quote: make damaged-pages PAGES=1000000 SEED=7
# make kills  kills a recording process a thousand times at random places and checks what is restored from its log: make kills KILLS=5000 SEED=7
# make compare-definitions   has the prover compute the definitions on random lists with the second implementation's answers
# make wrong-definitions   plants every wrong definition, not only those of the gate
# make listing   prints the machine code that the tests look at
# make counts   counts what docs/ASSURANCE.md tells

.PHONY: demo test lib install reproduce bench bench-shelf shelf-mistakes command sample long-audit fuzz damaged-pages kills compare-definitions wrong-definitions listing counts

PREFIX ?= /usr/local
archive = target/staticlib/libquotebook.a
listing = target/staticlib/liblisting.a
shared = target/sharedlib/libquotebook.so
# The header has the version, as 10000 * major + 100 * minor + patch.
number := $(shell sed -n 's/^.define QB_LIBRARY_VERSION //p' include/quotebook.h)
major := $(shell expr $(number) / 10000)
version := $(major).$(shell expr $(number) / 100 % 100).$(shell expr $(number) % 100)

demo:
	@demo/run

test:
	@tests/run

# Never older than its sources: those of crate quotebook and of the crates that it uses. What rt makes in out/ is none of them.
used := $(shell install/below quotebook)
$(archive): crates.txt $(shell find $(used:%=crates/%) -name out -prune -o \( -name '*.rt' -o -name '*.antt' \) -print)
	@echo "Proving and compiling the library (rt lib in crates/quotebook): some minutes, the first time."
	@install/archive quotebook

$(listing): crates.txt $(shell find $(patsubst %,crates/%,$(shell install/below listing)) -name out -prune -o \( -name '*.rt' -o -name '*.antt' \) -print)
	@install/archive listing

# The same machine code, position independent as it is, under the names of the header.
$(shared): $(archive) install/exports.map
	@mkdir -p target/sharedlib
	@$(CC) -shared -Wl,-soname,libquotebook.so.$(major) -Wl,--version-script,install/exports.map -Wl,-z,defs -o $@ \
		-Wl,--whole-archive $(archive) -Wl,--no-whole-archive

lib: $(archive) $(shared)
	@echo "C, C++: cc -Iinclude yours.c $(archive)        (include/quotebook.h, examples/c, examples/cpp)"
	@echo "Rust:   quotebook = { path = \"rust/quotebook\" }                          (rust/quotebook, links it by itself)"
	@echo "Python: import quotebook, with python/ on the path                       (python/quotebook.py, loads $(shared))"
	@echo "make install PREFIX=.. puts it where pkg-config, CMake and Python find it."

install: $(archive) $(shared)
	@mkdir -p $(DESTDIR)$(PREFIX)/include $(DESTDIR)$(PREFIX)/lib/pkgconfig $(DESTDIR)$(PREFIX)/lib/cmake/quotebook $(DESTDIR)$(PREFIX)/share/quotebook/python
	@install -m 644 include/quotebook.h $(DESTDIR)$(PREFIX)/include/
	@install -m 644 $(archive) $(DESTDIR)$(PREFIX)/lib/
	@install -m 755 $(shared) $(DESTDIR)$(PREFIX)/lib/libquotebook.so.$(version)
	@ln -sf libquotebook.so.$(version) $(DESTDIR)$(PREFIX)/lib/libquotebook.so.$(major)
	@ln -sf libquotebook.so.$(major) $(DESTDIR)$(PREFIX)/lib/libquotebook.so
	@sed 's/@VERSION@/$(version)/' install/quotebook.pc.in > $(DESTDIR)$(PREFIX)/lib/pkgconfig/quotebook.pc
	@install -m 644 install/quotebook-config.cmake $(DESTDIR)$(PREFIX)/lib/cmake/quotebook/
	@sed 's/@VERSION@/$(version)/; s/@MAJOR@/$(major)/' install/quotebook-config-version.cmake.in > $(DESTDIR)$(PREFIX)/lib/cmake/quotebook/quotebook-config-version.cmake
	@install -m 644 python/quotebook.py $(DESTDIR)$(PREFIX)/share/quotebook/python/
	@echo "Installed quotebook $(version) below $(DESTDIR)$(PREFIX)."

reproduce:
	@tests/reproduce

listing: $(listing)
	objdump -d --no-show-raw-insn $(listing)

bench: $(archive)
	@cargo run --release --offline --quiet --manifest-path rust/Cargo.toml -p bench
	@bench/walk/run

reviewer = cargo build --release --offline --quiet --manifest-path rust/Cargo.toml -p quotebook-command
programs = rust/target/release

command: $(archive)
	@$(reviewer)
	@echo "$(programs)/quotebook help"

sample: command
	@$(reviewer) --example sample
	@mkdir -p target/sample
	@$(programs)/examples/sample target/sample/day.log target/sample/router.csv
	@echo "target/sample/day.log, target/sample/router.csv (docs/REVIEWING.md)"

MESSAGES ?= 10000000
long-audit: command
	@$(reviewer) --example long
	@mkdir -p target/sample
	@$(programs)/examples/long $(MESSAGES) target/sample/long.log
	@/usr/bin/time -f "%e s, %U s of processor, %M KiB of memory at most" $(programs)/quotebook audit target/sample/long.log

bench-shelf: $(archive)
	@cargo run --release --offline --quiet --manifest-path rust/Cargo.toml -p bench -- --shelf

shelf-mistakes: $(archive)
	@tests/shelf-mistakes

fuzz: $(archive)
	@cargo run --release --offline --quiet --manifest-path rust/Cargo.toml -p quotebook --example fuzz -- $(CALLS) $(SEED)

PAGES ?= 200000
damaged-pages: $(archive)
	@cargo run --release --offline --quiet --manifest-path rust/Cargo.toml -p quotebook --example pages -- $(PAGES) $(SEED)

kills: $(archive)
	@cargo run --release --offline --quiet --manifest-path rust/Cargo.toml -p quotebook --example kills -- $(KILLS) $(SEED)

compare-definitions:
	@tests/definitions

wrong-definitions:
	@tests/wrong-definitions

counts:
	@tests/counts
