# What a person calls by name; the gate itself is .ci/run.
.PHONY: help demo lib line firmware firmware-test firmware-figures test bench clean always

ANSWER = target/here/answer
ARCHIVE = target/here/libquicksetter.a
HANDHELD = target/here/libhandheld.a
SHARED = target/libquicksetter.so
LIB = target/lib
LINE = target/line
ARM = target/firmware
MODULES = target/module/quicksetter.ll target/module/handheld.ll
CRATES = crates.txt $(shell find crates -mindepth 2 -name out -prune -o \( -name '*.rt' -o -name '*.antt' -o -type d \) -print)

help:
	@echo 'make demo    a first session at the bench: the pallet night, run and told in words'
	@echo 'make test    the whole gate: layout, proofs, must-fail edits, programs, tapes, C and Rust hosts, tools'
	@echo 'make lib     the libraries for a C host, board and programmer, with headers and examples, in $(LIB)'
	@echo 'make line    encoder, bench and program for a serial port, in $(LINE)'
	@echo 'make firmware'
	@echo '             the libraries for Cortex-M and for Arm Linux, and a bare board, in $(ARM); it needs the kit alone. WORDS=.. are added to the compiler'
	@echo 'make firmware-test, make firmware-figures'
	@echo '             runs both on emulated boards; measures there, and writes the tables of docs/FIRMWARE.md'
	@echo 'make bench   measures, and writes docs/PERFORMANCE.md'
	@echo 'make clean   removes target/'
	@echo 'make $(ANSWER)'
	@echo '             the answer program, brought up to date'
	@echo 'make $(SHARED)'
	@echo '             the proved library as a shared object, from which tools/explain.py has its judge'

# The pallet night, run through the answer program and told in words.
demo: $(ANSWER) $(SHARED)
	@python3 tools/explain.py --run $(ANSWER) tools/sessions/pallet-night.txt

# rt looks itself whether anything changed, which takes it a moment, and runs the program, here on no tape at all: it is never older than the crates.
$(ANSWER): always
	@mkdir -p target
	@test -e $@ || echo 'The answer program is proved from nothing, which takes some minutes.'
	@cd crates/answer && rt run </dev/null >../../target/answer.log 2>&1 || { cat ../../target/answer.log; exit 1; }
	@bash tools/here.sh answer

# here.sh compiles anew each time, over what rt has kept, so make looks whether a file of the crates, or a folder where one went away, is newer.
$(ARCHIVE): $(CRATES)
	bash tools/here.sh library
	@touch $@

# The same run makes these.
$(HANDHELD) $(SHARED): $(ARCHIVE)
	@test -e $@ || bash tools/here.sh library
	@touch $@

lib: $(ARCHIVE) $(HANDHELD)
	@mkdir -p $(LIB)/include
	@cp host/quicksetter.h host/programmer.h $(LIB)/include/
	@cp $(ARCHIVE) $(HANDHELD) host/example.c host/program.c $(LIB)/
	@echo 'gcc -std=c11 -O2 -I include example.c -L . -lquicksetter -o example' >$(LIB)/README
	@echo 'gcc -std=c11 -O2 -I include program.c -L . -lhandheld -lquicksetter -o program' >>$(LIB)/README
	@echo 'In $(LIB), of the board: include/quicksetter.h, libquicksetter.a, example.c;'
	@echo 'of the handheld programmer: include/programmer.h, libhandheld.a, program.c. README has the line that compiles each example.'

line: $(ARCHIVE) $(HANDHELD)
	@bash host/line/build.sh target/here $(LINE)
	@echo 'In $(LINE): encoder, bench and program. Each tells its use with --help; README.md has a first hour with them.'

# here.sh has made the modules too, so that one that is older than a crate is made here alone.
$(MODULES): $(CRATES)
	bash tools/module.sh $(basename $(notdir $@))

firmware: $(MODULES)
	@bash firmware/build.sh $(ARM) $(WORDS)
	@bash firmware/board/build.sh $(ARM) cortex-m3 $(ARM)/board.elf $(WORDS)
	@echo 'In $(ARM): a folder for each core, and board.elf, the bare board of firmware/board for Cortex-M3. docs/FIRMWARE.md tells what to take.'

firmware-test: $(ARCHIVE) $(HANDHELD) $(ANSWER) firmware
	python3 firmware/test/test.py $(ARM) target/here $(ANSWER)

firmware-figures: firmware
	python3 firmware/figures.py --libraries $(ARM)

test:
	bash .ci/run

bench:
	python3 perf/run.py

clean:
	rm -rf target
