# make             the archive, the headers, the programs for lab traces and the manual pages, into dist/
# make demo        a published session, from negotiate to an opened response, step by step
# make examples    the examples and the demo, run and compared
# make packaging   headers, symbols, shared object, manual page, install and uninstall, packages: checked
# make package     a tarball and a Debian package, with their checksums, into dist/
# make rust        the tests of the Rust wrapper
# make test        the whole gate: rt ci, then the outside tests
# make consistency pages, lists, edits and vectors agree with each other and with the tree: seconds
# make bench       sealing, opening, derivation and folding beside other libraries; bench-docs: and the figures into docs/
# make fuzz, samba, coverage   on demand: the fuzzers, a minute each; Samba through the library; what the tests execute
# make install, uninstall (PREFIX, DESTDIR), clean

CFLAGS ?= -O2 -g
WARNINGS = -std=c11 -Wall -Wextra -Wpedantic -Werror
SANITIZE = -fsanitize=address,undefined -fno-sanitize-recover=all
ARCHIVE = target/staticlib/libsmb3seal.a
PRIMITIVES = target/staticlib/libtest_primitives.a
BUILD = target/c

PROVED_TOOLS = smb3seal-replay smb3seal-rescue
TOOLS = $(PROVED_TOOLS) smb3seal-status smb3seal-explain
all: dist/libsmb3seal.a dist/smb3seal.h dist/smb3seal_text.h dist/smb3seal.3 $(TOOLS:%=dist/%) $(TOOLS:%=dist/%.1)

# rt decides by itself what has to be proved again, and runs its own jobs beside each other.
RATTLE := crates.txt $(shell find crates -name out -prune -o \( -name '*.rt' -o -name '*.antt' \) -print)
.NOTPARALLEL:

# A crate is a library or an archive: that of smb3seal is made of a crate that has its exports.
$(ARCHIVE): CRATE = smb3seal_c
$(PRIMITIVES): CRATE = test_primitives
$(ARCHIVE) $(PRIMITIVES): $(RATTLE)
	@echo "proving and building $@ (from nothing many minutes, after the gate's rt ci seconds)"
	@scripts/proved $(CRATE) $@

# The programs that replay and rescue lab traces: rt proves, links and tries them.
target/bin/%: $(RATTLE)
	@echo "proving and building $@"
	@scripts/proved $* $@

$(PROVED_TOOLS:%=dist/%): dist/smb3seal-%: target/bin/%
	@mkdir -p dist
	cp $< $@

# What is not proved: a script that makes a status of what these write, and a reader's aid in C over the library's calls.
dist/smb3seal-status: tools/smb3seal-status
	@mkdir -p dist
	cp $< $@

dist/smb3seal-explain: tools/smb3seal-explain.c include/smb3seal.h include/smb3seal_text.h $(ARCHIVE)
	@mkdir -p dist
	$(CC) $(WARNINGS) $(CFLAGS) -Iinclude $< $(ARCHIVE) -o $@

dist/%.1: packaging/%.1
	@mkdir -p dist
	cp $< $@

dist/libsmb3seal.a: $(ARCHIVE)
	@mkdir -p dist
	cp $< $@

dist/%.h: include/%.h
	@mkdir -p dist
	cp $< $@

dist/%.3: include/%.h packaging/manual
	@mkdir -p dist
	packaging/manual $< > $@

$(BUILD)/smb3_vectors.h: scripts/c-vectors vectors/smb3.json
	@mkdir -p $(BUILD)
	scripts/c-vectors $@

# What each target needs is installed first, once: NO_SETUP=1 says that it was.
setup-%:
	@$(if $(NO_SETUP),true,scripts/setup $*)

include examples/examples.mk
include packaging/packaging.mk
include tests/tests.mk
include bench/bench.mk

# The last line is that of rt ci: 'N passed, 0 failed'.
test:
	@scripts/gate

clean:
	rm -rf target dist

.PHONY: all test clean
