# The examples and the demo: compiled plain and with sanitizers, run, and compared with the output that is stored beside them.

EXAMPLE_INPUTS = include/smb3seal.h include/smb3seal_text.h $(BUILD)/smb3_vectors.h $(ARCHIVE)
EXAMPLES = seal_and_open server exchange sign pieces demo
EXAMPLE_PROGRAMS = $(foreach e,$(EXAMPLES),$(BUILD)/examples/$(e) $(BUILD)/examples/$(e)_sanitized)

$(BUILD)/examples/%: examples/%.c $(EXAMPLE_INPUTS)
	@mkdir -p $(@D)
	$(CC) $(WARNINGS) $(CFLAGS) -Iinclude -I$(BUILD) $< $(ARCHIVE) -o $@

$(BUILD)/examples/%_sanitized: examples/%.c $(EXAMPLE_INPUTS)
	@mkdir -p $(@D)
	$(CC) $(WARNINGS) $(CFLAGS) $(SANITIZE) -Iinclude -I$(BUILD) $< $(ARCHIVE) -o $@

demo: setup-demo
	@$(MAKE) --silent --no-print-directory $(BUILD)/examples/demo
	@$(BUILD)/examples/demo

examples: setup-build
	@$(MAKE) --silent --no-print-directory $(EXAMPLE_PROGRAMS)
	@for p in $(EXAMPLE_PROGRAMS); do e=$${p##*/}; scripts/same-output examples/$${e%_sanitized}.out $$p || exit 1; done
	@scripts/same-output examples/demo_ccm.out $(BUILD)/examples/demo ccm
	@$(MAKE) --silent --no-print-directory dist/smb3seal-replay dist/smb3seal-rescue
	@for c in gcm ccm; do rm -f $(BUILD)/demo_$$c.trace; \
	    (umask 0; $(BUILD)/examples/demo $$c $(BUILD)/demo_$$c.trace > $(BUILD)/demo_$$c.log) || exit 1; \
	    test "$$(stat -c %a $(BUILD)/demo_$$c.trace)" = 600 || { echo "others may read the demo's trace"; exit 1; }; \
	    scripts/same-output examples/demo_replay.out dist/smb3seal-replay $(BUILD)/demo_$$c.trace || exit 1; done
	@scripts/same-output examples/rescue.out examples/rescue $(BUILD)/demo_gcm.trace $(BUILD)/rescue

.PHONY: demo examples
