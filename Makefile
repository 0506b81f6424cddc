# make test: all that is proved and tested. make day: the day's path on a sample. make bench: speed beside C, of
# slots, frames and records; make bench-words: of code words alone. make faults, faults-slot, faults-frame, faults-writer,
# faults-record: the tests notice what is wrong. make lc3-frame: frames of another encoder, where it is installed; list-frame:
# such frames for the benchmark. make test-rust: the Rust crate.
.PHONY: test day bench bench-words build build-tests faults faults-slot faults-frame faults-writer faults-record lc3-frame list-frame
.PHONY: test-rust clean
.DELETE_ON_ERROR:

CC := gcc
CXX := g++
CFLAGS := -std=c11 -O2 -Wall -Wextra -Werror -Iinclude
CXXFLAGS := -std=c++11 -O2 -Wall -Wextra -Wpedantic -Werror -Iinclude
FACE_ARCHIVE := target/staticlib/libsilberlaus.a
RATTLE := crates.txt $(shell find crates -name '*.rt' -o -name '*.antt')
WORDS := tests/code_word
BUILT := target/tests/code_word
HAND := $(addprefix $(WORDS)/,tables.c make.c general.c closed.c)
CASES := tests/common/cases.c tests/common/said.c
SLOT := tests/slot
SLOT_BUILT := target/tests/slot
QUICK := $(SLOT)/quick.c $(addprefix $(WORDS)/,tables.c make.c closed.c)
RECORD := tests/record
RECORD_BUILT := target/tests/record
FACE := tests/face
FACE_BUILT := target/tests/face
FRAME := tests/frame
FRAME_PARTS := $(addprefix $(FRAME)/,held.c list.c judge.c tries.c refusals.c made.c make.c plans.c lend.c reference.c)
# FRAME_READER=tests/frame/stand_in.c tries the frame's tests and the benchmark without the archive's reader, and builds
# them in a folder of their own
FRAME_READER := $(FACE_ARCHIVE)
FRAME_BUILT := target/tests/frame$(if $(filter %.c,$(FRAME_READER)),_stand_in)
WRITER := tests/writer
WRITER_PARTS := $(addprefix $(WRITER)/,held.c again.c vectors.c judge.c refusals.c tries.c steer.c ask.c reference.c) \
	$(addprefix $(FRAME)/,list.c make.c plans.c lend.c reference.c)
# FRAME_WRITER=tests/writer/stand_in.c does the same for the archive's writer; its test then reads back without the archive
FRAME_WRITER := $(FACE_ARCHIVE)
WRITER_BUILT := target/tests/writer$(if $(filter %.c,$(FRAME_WRITER)),_stand_in)
STAND_INS := $(filter %.c,$(FRAME_READER) $(FRAME_WRITER))
BENCH := tests/bench
BENCH_BUILT := target/tests/bench$(if $(STAND_INS),_stand_in)

test:
	@tests/run

day: target/bin/day
	@target/bin/day <crates/day/stdin

bench: $(BENCH_BUILT)/bench
	@$(BENCH_BUILT)/bench

bench-words: $(BUILT)/bench
	@$(BUILT)/bench

build: target/staticlib/libsilberlaus.a target/staticlib/libword_calls.a target/bin/day target/bin/list

build-tests: $(BUILT)/check $(BUILT)/bench $(SLOT_BUILT)/check $(FRAME_BUILT)/check target/tests/frame/check_reference \
		$(WRITER_BUILT)/check target/tests/writer/check_reference $(RECORD_BUILT)/check $(BENCH_BUILT)/bench \
		$(FACE_BUILT)/check $(FACE_BUILT)/from_cpp

faults:
	@$(WORDS)/faults $(CC) $(CFLAGS)

faults-slot:
	@$(SLOT)/faults $(CC) $(CFLAGS)

faults-frame:
	@$(FRAME)/faults $(CC) $(CFLAGS)

faults-writer:
	@$(WRITER)/faults $(CC) $(CFLAGS)

faults-record:
	@$(RECORD)/faults $(CC) $(CFLAGS)

lc3-frame: $(FRAME_READER) $(FRAME_WRITER)
	@$(FRAME)/lc3 read $(FRAME_READER) $(FRAME_WRITER) $(CC) $(CFLAGS)

list-frame:
	@$(FRAME)/lc3 list $(CC) $(CFLAGS)

test-rust:
	cd rust && cargo test --offline

clean:
	rm -rf target

# rt builds a program and an archive from proved crates only, and leaves them in the crate's folder out/. What it says goes to a
# file, the crates that it has done to the reader; its status goes round the pipe.
target/bin/%: $(RATTLE) crates/%/stdin
	@echo 'Only proved code is run, so the library is proved first: some 20 minutes on four cores where nothing is proved yet.'
	@mkdir -p target/bin
	@cd crates/$* && { rt run 2>&1 >../../target/$*.out <stdin; echo $$? >../../target/$*.status; } | tee ../../target/$*.log \
		| sed -un 's/^fn \([a-z0-9_]*\)::main: proved.*/    \1 proved/p'
	@[ "$$(cat target/$*.status)" = 0 ] || { tail -n 25 target/$*.log >&2; exit 1; }
	@cp crates/$*/out/$* $@

target/staticlib/lib%.a: $(RATTLE)
	@mkdir -p target/staticlib
	@cd crates/$* && rt lib >../../target/$*.log 2>&1 || { tail -n 25 ../../target/$*.log >&2; exit 1; }
	@cp crates/$*/out/lib$*.a $@

$(BUILT)/check: $(WORDS)/check.c $(WORDS)/search.c $(CASES) $(CASES:.c=.h)
$(BUILT)/bench: $(WORDS)/bench.c $(HAND) tests/common/said.c tests/common/said.h
$(BUILT)/check $(BUILT)/bench: target/staticlib/libword_calls.a $(wildcard $(WORDS)/*.h)
	@mkdir -p $(BUILT)
	$(CC) $(CFLAGS) -o $@ $(filter %.c,$^) $(filter %.a,$^)

$(SLOT_BUILT)/check: $(addprefix $(SLOT)/,check.c batch.c list.c damage.c reference.c) $(QUICK) $(WORDS)/search.c $(CASES) \
		$(FACE_ARCHIVE) $(wildcard $(SLOT)/*.h $(WORDS)/*.h) $(CASES:.c=.h) include/silberlaus.h
	@mkdir -p $(SLOT_BUILT)
	$(CC) $(CFLAGS) -o $@ $(filter %.c,$^) $(filter %.a,$^)

$(FRAME_BUILT)/check: $(FRAME)/check.c $(FRAME_PARTS) $(CASES) $(FRAME_READER) $(wildcard $(FRAME)/*.h) $(CASES:.c=.h) \
		include/silberlaus.h
	@mkdir -p $(FRAME_BUILT)
	$(CC) $(CFLAGS) -o $@ $(filter %.c,$^) $(filter %.a,$^)

# the references alone: they want no archive
target/tests/frame/check_reference: $(FRAME)/check_reference.c $(FRAME_PARTS) $(CASES) $(wildcard $(FRAME)/*.h) $(CASES:.c=.h) \
		include/silberlaus.h
	@mkdir -p $(@D)
	$(CC) $(CFLAGS) -o $@ $(filter %.c,$^)

$(WRITER_BUILT)/check: $(WRITER)/check.c $(WRITER_PARTS) $(CASES) $(FRAME_WRITER) \
		$(if $(filter %.c,$(FRAME_WRITER)),$(FRAME)/stand_in.c) $(wildcard $(WRITER)/*.h $(FRAME)/*.h) $(CASES:.c=.h) \
		include/silberlaus.h
	@mkdir -p $(WRITER_BUILT)
	$(CC) $(CFLAGS) -o $@ $(filter %.c,$^) $(filter %.a,$^)

target/tests/writer/check_reference: $(WRITER)/check_reference.c $(WRITER_PARTS) $(CASES) $(wildcard $(WRITER)/*.h $(FRAME)/*.h) \
		$(CASES:.c=.h) include/silberlaus.h
	@mkdir -p $(@D)
	$(CC) $(CFLAGS) -o $@ $(filter %.c,$^)

$(RECORD_BUILT)/check: $(addprefix $(RECORD)/,check.c lines.c moves.c made.c both.c kinds.c reference.c) $(CASES) $(FACE_ARCHIVE) \
		$(wildcard $(RECORD)/*.h) $(CASES:.c=.h) include/silberlaus.h
	@mkdir -p $(RECORD_BUILT)
	$(CC) $(CFLAGS) -o $@ $(filter %.c,$^) $(filter %.a,$^)

# Where a function starts in memory makes up to 13 % of a frame's time, so the archive's and the C's start at multiples of 64.
# The archive is one object: what stands in for one of its functions goes before it where its names are weak.
$(BENCH_BUILT)/aligned.a: $(FACE_ARCHIVE)
	@mkdir -p $(BENCH_BUILT)
	objcopy $(if $(STAND_INS),--weaken) --set-section-alignment '.text.*=64' $< $@

$(BENCH_BUILT)/bench: LC3_FLAGS = $(shell $(FRAME)/lc3 flags $(CC) $(CFLAGS))
$(BENCH_BUILT)/bench: CFLAGS += -falign-functions=64
$(BENCH_BUILT)/bench: $(wildcard $(BENCH)/*.c) $(SLOT)/damage.c $(SLOT)/reference.c $(QUICK) $(WORDS)/search.c \
		$(addprefix $(FRAME)/,lend.c make.c reference.c) $(addprefix $(WRITER)/,again.c ask.c reference.c) \
		$(RECORD)/reference.c $(CASES) $(STAND_INS) $(BENCH_BUILT)/aligned.a \
		$(wildcard $(addsuffix /*.h,$(BENCH) $(SLOT) $(WORDS) $(FRAME) $(WRITER) $(RECORD))) $(CASES:.c=.h) include/silberlaus.h
	@mkdir -p $(BENCH_BUILT)
	$(CC) $(CFLAGS) $(if $(filter %.c,$(FRAME_READER)),-DFRAME_STAND_IN) $(if $(filter %.c,$(FRAME_WRITER)),-DWRITER_STAND_IN) \
		-o $@ $(filter %.c,$^) $(filter %.a,$^) $(LC3_FLAGS)

$(FACE_BUILT)/check: $(wildcard $(FACE)/*.c $(FACE)/*.h) $(FACE_ARCHIVE) include/silberlaus.h
	@mkdir -p $(FACE_BUILT)
	$(CC) $(CFLAGS) -o $@ $(filter %.c,$^) $(filter %.a,$^)

$(FACE_BUILT)/from_cpp: $(FACE)/from_cpp.cc $(FACE_ARCHIVE) include/silberlaus.h
	@mkdir -p $(FACE_BUILT)
	$(CXX) $(CXXFLAGS) -o $@ $(filter %.cc,$^) $(filter %.a,$^)
