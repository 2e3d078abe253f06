# Benchmarks: never part of the tests. `make bench` takes some five minutes where the archives are proved; its figures are in
# target/c: speed.csv, speed.png, stack.csv, table.csv and pieces.csv. `make bench-docs` puts them into docs/. `make bench-table` is the
# session table's part alone, `make bench-pieces` that of messages in pieces.

BENCH_PARTS = bench batch columns report peer_smb3seal peer_openssl peer_mbedtls peer_nettle peer_wolfssl peer_libtomcrypt
BENCH_SOURCES = $(BENCH_PARTS:%=bench/%.c)
BENCH_HEADERS = bench/peer.h bench/batch.h bench/columns.h bench/report.h include/smb3seal.h tests/primitives.h
BENCH_LIBRARIES = -lcrypto -lmbedcrypto -lnettle -lwolfssl -ltomcrypt

$(BUILD)/bench: $(BENCH_SOURCES) $(BENCH_HEADERS) $(ARCHIVE) $(PRIMITIVES)
	@mkdir -p $(BUILD)
	$(CC) $(WARNINGS) -O2 $(BENCH_SOURCES) $(ARCHIVE) $(PRIMITIVES) $(BENCH_LIBRARIES) -o $@

$(BUILD)/stack: bench/stack.c include/smb3seal.h tests/primitives.h $(ARCHIVE) $(PRIMITIVES)
	@mkdir -p $(BUILD)
	$(CC) $(WARNINGS) -O2 $< $(ARCHIVE) $(PRIMITIVES) -Wl,-z,now -o $@

$(BUILD)/table: bench/table.c include/smb3seal.h $(ARCHIVE)
	@mkdir -p $(BUILD)
	$(CC) $(WARNINGS) -O2 $< $(ARCHIVE) -o $@

$(BUILD)/pieces: bench/pieces.c include/smb3seal.h $(ARCHIVE)
	@mkdir -p $(BUILD)
	$(CC) $(WARNINGS) -O2 $< $(ARCHIVE) -o $@

bench-pieces: $(BUILD)/pieces
	@$(BUILD)/pieces $(BUILD)/pieces.csv

bench-table: $(BUILD)/table
	@$(BUILD)/table $(BUILD)/table.csv
	@scripts/table-instructions $(BUILD)/table $(BUILD)/table.csv

bench: setup-bench
	@$(MAKE) --no-print-directory $(BUILD)/bench $(BUILD)/stack
	@$(BUILD)/bench $(BUILD)/speed.csv
	@$(BUILD)/stack $(BUILD)/stack.csv
	@gnuplot -c bench/speed.gp $(BUILD)/speed.csv $(BUILD)/speed.png
	@$(MAKE) --no-print-directory bench-table bench-pieces

bench-docs: bench
	cp $(BUILD)/speed.csv $(BUILD)/speed.png $(BUILD)/stack.csv $(BUILD)/table.csv $(BUILD)/pieces.csv docs/

.PHONY: bench bench-docs bench-table bench-pieces
