# The outside tests: what `make test` runs after rt ci, each also by its own name. A test is skipped with a word where a package that it
# needs is missing.

TEST_HEADERS = $(wildcard tests/*.h) include/smb3seal.h $(BUILD)/smb3_vectors.h
SHARED = check openssl_aead model call messages generate guard table_model table_call table_generate trace_format
KEY_TESTS = vectors_test numbers_test lengths_test walk_test bits_test random_test guard_test
TABLE_TESTS = table_calls_test table_numbers_test table_test table_guard_test
TRACE_TESTS = trace_test rescue_test
PIECES_TESTS = fold_pieces_test sign_pieces_test
LIBRARY_TESTS = $(KEY_TESTS) sign_test $(PIECES_TESTS) $(TABLE_TESTS) $(TRACE_TESTS)

# Each program twice: as it is, and with the sanitizers.
$(BUILD)/plain/%.o: tests/%.c $(TEST_HEADERS)
	@mkdir -p $(@D)
	$(CC) $(WARNINGS) $(CFLAGS) -I$(BUILD) -c $< -o $@

$(BUILD)/sanitized/%.o: tests/%.c $(TEST_HEADERS)
	@mkdir -p $(@D)
	$(CC) $(WARNINGS) $(CFLAGS) $(SANITIZE) -I$(BUILD) -c $< -o $@

define link
$(patsubst %,$(BUILD)/$(1)/%,$(LIBRARY_TESTS) capture): $(BUILD)/$(1)/%: $(BUILD)/$(1)/%.o $(SHARED:%=$(BUILD)/$(1)/%.o) $(ARCHIVE)
	$(CC) $(2) $$^ -lcrypto -o $$@

$(BUILD)/$(1)/primitives_test: $(addprefix $(BUILD)/$(1)/,primitives_test.o check.o openssl_aead.o) $(PRIMITIVES)
	$(CC) $(2) $$^ -lcrypto -o $$@
endef
$(eval $(call link,plain,))
$(eval $(call link,sanitized,$(SANITIZE)))

PROGRAMS = $(foreach t,primitives_test $(LIBRARY_TESTS),$(BUILD)/plain/$(t) $(BUILD)/sanitized/$(t))
VALGRIND = valgrind --quiet --error-exitcode=1 --leak-check=full
VALGRIND_CASES = 10000
VALGRIND_LISTS = 2000

# Each program once more, with a library that can be made wrong.
EXPORTS = derive fold fold_response fold_begin fold_piece fold_finish fold_response_finish seal open sign verify sign_begin sign_piece \
    sign_finish verify_finish table_find table_add table_remove table_seal table_open \
    trace_head trace_record trace_read_head trace_read trace_rescue
WRONG = $(patsubst %,$(BUILD)/plain/%.o,mutants sign_mutants fold_pieces_mutants sign_pieces_mutants table_mutants trace_mutants)
MUTANTS = $(LIBRARY_TESTS:%=$(BUILD)/mutants/%)
$(MUTANTS): $(BUILD)/mutants/%: $(BUILD)/plain/%.o $(SHARED:%=$(BUILD)/plain/%.o) $(WRONG) $(ARCHIVE)
	@mkdir -p $(@D)
	$(CC) $(EXPORTS:%=-Wl,--wrap=smb3seal_%) $^ -lcrypto -o $@

outside: setup-test
	@$(MAKE) --silent --no-print-directory NO_SETUP=1 outside-tests

# Two lanes side by side, which share no file that they write: what both need is built by one of them at a time, since two runs of rt, or of
# the compiler, in one tree write the same files.
BUILT = flock target/built.lock $(AGAIN) all $(PRIMITIVES) built-programs
outside-tests: consistency dist/smb3seal-replay dist/smb3seal-rescue $(BUILD)/smb3_vectors.h
	@scripts/two-lanes "$(BUILT) && $(AGAIN) library-lane" "$(AGAIN) replay rescue && $(BUILT) && $(AGAIN) program-lane"

library-lane: symbols programs mutants tshark
program-lane: valgrind examples packaging rust unix faults

built-programs:
	@scripts/test-with "the programs of the C tests" libssl-dev -- $(AGAIN) $(PROGRAMS) $(MUTANTS)

# Pages, lists, edits and vectors agree with each other and with the tree. The layout of the Rattle files is rt ci's own check.
consistency:
	@scripts/vectors --check
	@scripts/test-with "the trace of the gate, and its lines" python3-cryptography -- scripts/lab-trace --check
	@scripts/numbers --check
	@scripts/docs-check
	@scripts/edits-check
	@scripts/exports-check
	@scripts/crates-picture --check

symbols: $(PRIMITIVES)
	@scripts/archive-symbols $(PRIMITIVES)

# NAME is run-NAME where the packages that it needs are here.
AGAIN = $(MAKE) --silent --no-print-directory

programs:
	@scripts/test-with "the C tests" libssl-dev -- $(AGAIN) run-programs

# Under the sanitizers, other random calls than as it is, and fewer.
run-programs: $(PROGRAMS)
	@for t in $(filter-out %sanitized/random_test %sanitized/table_test,$(PROGRAMS)) \
	    "$(BUILD)/sanitized/random_test 2 20000" "$(BUILD)/sanitized/table_test 2 20000"; do $$t || exit 1; done

# The program that replays traces, beside one in Python.
REPLAYED = 20000
replay: dist/smb3seal-replay
	@scripts/test-with "the replay beside one in Python" python3-cryptography -- tests/replay_check.py $< $(REPLAYED)

# The program that rescues traces, beside one in Python.
RESCUED = 20000
rescue: dist/smb3seal-rescue
	@scripts/test-with "the rescue beside one in Python" python3-cryptography -- tests/rescue_check.py $< $(RESCUED)

# Both as Unix programs: arguments, names, a full standard output, the status for scripts.
unix: all
	@scripts/test-with "the two programs as Unix programs" python3-cryptography -- tests/programs_check.py dist

# And with each of their calls made to fail.
faults: all
	@scripts/test-with "calls of the two programs that fail" python3-cryptography strace -- tests/programs_check.py dist faults

valgrind:
	@scripts/test-with "the C tests under valgrind" libssl-dev valgrind -- $(AGAIN) run-valgrind

run-valgrind: $(addprefix $(BUILD)/plain/,vectors_test walk_test lengths_test random_test table_test trace_test)
	@for t in vectors_test walk_test lengths_test "random_test 1 $(VALGRIND_CASES)" "table_test 1 $(VALGRIND_LISTS)" \
	    "trace_test 1 $(VALGRIND_LISTS)"; do \
	    printf 'valgrind '; $(VALGRIND) $(BUILD)/plain/$$t || exit 1; done

mutants:
	@scripts/test-with "the wrong libraries" libssl-dev -- $(AGAIN) run-mutants

run-mutants: $(MUTANTS)
	@scripts/mutants $(BUILD)/mutants tests/mutants.c vectors_test walk_test lengths_test bits_test guard_test numbers_test
	@scripts/mutants $(BUILD)/mutants tests/sign_mutants.c sign_test guard_test
	@scripts/mutants $(BUILD)/mutants tests/fold_pieces_mutants.c fold_pieces_test
	@scripts/mutants $(BUILD)/mutants tests/sign_pieces_mutants.c sign_pieces_test
	@scripts/mutants $(BUILD)/mutants tests/table_mutants.c table_calls_test table_guard_test table_numbers_test
	@scripts/mutants $(BUILD)/mutants tests/trace_mutants.c trace_test rescue_test

tshark:
	@scripts/test-with "tshark on a capture" libssl-dev tshark -- $(AGAIN) run-tshark

run-tshark: $(BUILD)/plain/capture
	@scripts/tshark-check $(BUILD)/plain/capture $(BUILD)/tshark

# A bounded run of each fuzzer, on demand. What they find goes to $(BUILD)/fuzz; the inputs that they keep, to folders in it.
FUZZ_SECONDS ?= 60
FUZZ = -max_total_time=$(FUZZ_SECONDS) -max_len=4096 -print_final_stats=1 -artifact_prefix=$(BUILD)/fuzz/
FUZZERS = $(BUILD)/fuzz/fuzz $(BUILD)/fuzz/table_fuzz
$(FUZZERS): $(BUILD)/fuzz/%: tests/%.c $(SHARED:%=tests/%.c) $(TEST_HEADERS) $(ARCHIVE)
	@mkdir -p $(@D)
	clang $(WARNINGS) -O1 -g -fsanitize=fuzzer,address,undefined -fno-sanitize-recover=all $(filter %.c %.a,$^) -lcrypto -o $@

fuzz: setup-fuzz
	@$(MAKE) --no-print-directory $(FUZZERS)
	scripts/fuzz-seeds $(BUILD)/fuzz/inputs
	$(BUILD)/fuzz/fuzz $(FUZZ) $(BUILD)/fuzz/inputs
	@mkdir -p $(BUILD)/fuzz/table_inputs
	$(BUILD)/fuzz/table_fuzz $(FUZZ) $(BUILD)/fuzz/table_inputs

# Samba's client and server through the library, on demand: installing Samba may start its service, and a server has to run as root.
$(BUILD)/plain/reseal: $(BUILD)/plain/reseal.o $(ARCHIVE)
	$(CC) $^ -o $@

samba: setup-samba
	@$(MAKE) --no-print-directory $(BUILD)/plain/reseal
	scripts/samba-check $(BUILD)/plain/reseal $(BUILD)/samba

# How much of the archive's code the tests execute, on demand.
COVERAGE_TESTS = vectors_test lengths_test random_test table_test
coverage: setup-test
	@$(MAKE) --no-print-directory $(COVERAGE_TESTS:%=$(BUILD)/plain/%)
	scripts/archive-coverage $(ARCHIVE) $(BUILD)/coverage $(BUILD)/plain/vectors_test $(BUILD)/plain/lengths_test \
	    "$(BUILD)/plain/random_test 1 $(VALGRIND_CASES)" "$(BUILD)/plain/table_test 1 $(VALGRIND_LISTS)"

.PHONY: outside outside-tests library-lane program-lane built-programs consistency symbols programs replay rescue unix faults valgrind mutants tshark
.PHONY: run-programs run-valgrind run-mutants run-tshark
.PHONY: fuzz samba coverage
