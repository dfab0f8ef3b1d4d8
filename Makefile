# `make demo` shows the library at work; `make test` proves and runs everything, and is what CI runs; `make install` puts the
# command hdrfs and its page below PREFIX.
SHELL := /bin/bash
.SHELLFLAGS := -euo pipefail -c
.PHONY: demo install test calls rust-tests bench crc-bits check fmt

SAMPLES := crates/samples/data
HDRFS := rust/target/release/hdrfs
LIBRARY := target/staticlib/libexchange.a
DEMO := target/demo
BROKEN := $(DEMO)/broken
TORN := $(DEMO)/torn
CRC_BITS := target/crc_bits
VOLUMES := target/volumes
PREFIX ?= /usr/local

# Proves crates and those below them, with a count of what is proved. In a run of the gate all was proved before, and it takes no part
# of the crates by name.
prove = if [[ $${CI:-} != true ]]; then tools/prove $(1) ci $(2); tail -n 1 $(1); fi

# The programs written in Rattle have no exit status, so what they wrote is looked at by others: the command's check, and cmp.
# The last block of volume 0 begins at 392. Cut there, the volume is still accepted, so that only the chain shows the difference. That of
# volume 2 begins at 210 and ends at 513: at 500 it is cut short.
demo:
	@rm -rf $(DEMO) && mkdir -p $(DEMO)
	@echo "Proving what is shown here; the first time takes some minutes."
	@$(call prove,$(DEMO)/proof.log,hdrfs_list gauge_archive)
	@tools/build hdrfs_list gauge_archive 2> $(DEMO)/build.log || { cat $(DEMO)/build.log; exit 1; }
	@$(MAKE) --no-print-directory $(HDRFS)
	@echo
	@echo "A volume with a block of every kind, and one with a damaged byte, listed:"
	@./target/bin/hdrfs_list < $(SAMPLES)/all_kinds.vol
	@./target/bin/hdrfs_list < $(SAMPLES)/wrong_block_sum.vol
	@echo
	@echo "A river gauge's archive of three volumes, written and checked:"
	@./target/bin/gauge_archive $(DEMO)/0.vol $(DEMO)/1.vol $(DEMO)/2.vol
	@$(HDRFS) check $(DEMO)
	@echo
	@echo "Each volume after the first has the SHA-256 digest of the one before it:"
	@$(HDRFS) chain $(DEMO)
	@echo
	@echo "A copy whose volume 0 lacks its last block: accepted by itself, but not the volume that volume 1 follows:"
	@mkdir $(BROKEN) && cp $(DEMO)/1.vol $(DEMO)/2.vol $(BROKEN)
	@head -c 392 $(DEMO)/0.vol > $(BROKEN)/0.vol
	@$(HDRFS) check $(BROKEN)/0.vol > $(BROKEN)/check.log
	@status=0; $(HDRFS) chain $(BROKEN) > $(BROKEN)/chain.log || status=$$?; cat $(BROKEN)/chain.log; test $$status -eq 1
	@grep -q "/1.vol: refused 23: .* (previous hash differs)$$" $(BROKEN)/chain.log
	@grep -q "broken at 1 of 2 places$$" $(BROKEN)/chain.log
	@echo
	@echo "A copy of volume 2 that ends within its last block, as where power was lost during an append, and what repairing it leaves:"
	@mkdir $(TORN) && head -c 500 $(DEMO)/2.vol > $(TORN)/torn.vol
	@status=0; $(HDRFS) check $(TORN)/torn.vol 2>&1 | tee $(TORN)/check.log || status=$$?; test $$status -eq 1
	@grep -q "/torn.vol: refused 2 at 210 (block 2): " $(TORN)/check.log
	@$(HDRFS) repair $(TORN)/torn.vol -o $(TORN)/whole.vol
	@$(HDRFS) check $(TORN)/whole.vol
	@head -c 210 $(DEMO)/2.vol | cmp - $(TORN)/whole.vol
	@echo
	@echo "What is in the archive, and the blocks of its last volume:"
	@$(HDRFS) inodes $(DEMO)
	@$(HDRFS) list --long $(DEMO)/2.vol
	@echo
	@echo "The tree with which that volume begins:"
	@$(HDRFS) tree $(DEMO)/2.vol | tee $(DEMO)/tree.log
	@grep -q '^    7  "river.csv"$$' $(DEMO)/tree.log
	@grep -q '^2 lines below 1$$' $(DEMO)/tree.log
	@echo
	@echo "The gauge's file out of all three, and its end, with a dot for each byte of its hole:"
	@$(HDRFS) extract $(DEMO) --inode 7 -o $(DEMO)/gauge.csv
	@tail -c 107 $(DEMO)/gauge.csv | tr '\0' '.' && echo
	@test "$$(tail -c 3 $(DEMO)/gauge.csv)" = "1,5"
	@cmp $(DEMO)/gauge.csv tests/gauge/expected.csv
	@echo
	@echo "It ends in 1,5 and is byte for byte the file in tests/gauge."

# The command; cargo knows what of it is up to date. Its library is proved before, where it is missing or older than its
# sources: cargo's build would do it too, and show nothing meanwhile. HDRFS_ARCHIVE may name a ready one.
.PHONY: $(HDRFS)
$(HDRFS):
	@if [[ -z $${HDRFS_ARCHIVE:-} && ( ! -f $(LIBRARY) || -n $$(find crates crates.txt -name out -prune -o \( -type f -o -path 'crates/*/*' \) -newer $(LIBRARY) -print -quit) ) ]]; \
	then mkdir -p target; $(call prove,target/library.log,exchange); tools/build exchange > target/build.log 2>&1 || { cat target/build.log; exit 1; }; fi
	@cargo build --release --offline --quiet --manifest-path rust/Cargo.toml --package hdrfs-command

install: $(HDRFS)
	install -D -m 755 $(HDRFS) $(DESTDIR)$(PREFIX)/bin/hdrfs
	install -D -m 644 man/hdrfs.1 $(DESTDIR)$(PREFIX)/share/man/man1/hdrfs.1

# The proofs come first; their last line, 'N passed, 0 failed', is printed again at the end, and only if all tests passed.
test:
	@log=$$(mktemp); trap 'rm -f "$$log"' EXIT; \
	rt ci 2>&1 | tee "$$log"; \
	if grep -qE '^rt: ok.*, [0-9]+ bad' "$$log"; then echo "an edit that must be refused is bad"; exit 1; fi; \
	$(MAKE) --no-print-directory calls rust-tests demo; \
	tail -n 1 "$$log"

# The exported calls, made from C through include/hdrfs.h and compared with what they must answer.
calls:
	tools/build exchange
	gcc -std=c11 -Wall -Wextra -Werror -Iinclude tests/c/calls.c tests/c/texts.c tests/c/digests.c tests/c/repair.c \
		tests/c/tree.c target/staticlib/libexchange.a -o target/calls
	./target/calls | diff tests/c/calls.expected -

rust-tests:
	cd rust && cargo test --release --offline --workspace

# zlib's checksum is timed beside the others where it can be linked.
bench:
	@mkdir -p target
	@features=; \
	if gcc -shared -x c /dev/null -lz -o target/with_zlib.so 2>/dev/null; then features="--features zlib"; \
	else echo "zlib cannot be linked here, so it is not timed"; fi; \
	cd rust && cargo run --release --offline --package bench $$features

# The program that works out checksums bit by bit, on three volumes of 16 MiB: with one data block, with data blocks of 1,000
# bytes and of 100.
crc-bits: $(CRC_BITS)
	@mkdir -p $(VOLUMES)
	@cargo run --release --offline --quiet --manifest-path rust/Cargo.toml --package generator --example volumes $(VOLUMES)
	@for name in one_block blocks_of_1000 blocks_of_100; do echo "$$name"; $(CRC_BITS) $(VOLUMES)/$$name.vol; done

$(CRC_BITS): docs/src/crc_bits.rs docs/src/crc_forms.rs
	@mkdir -p target
	rustc -O --edition 2021 $< -o $@

# The quick form of the proofs: only what changed since the last time is proved again.
check:
	rt all check

fmt:
	for crate in crates/*/; do (cd $$crate && rt fmt); done
	cd rust && cargo fmt
