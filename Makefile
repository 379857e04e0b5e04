# The C side: the driver, its tests, the comparison with a simulator, the benchmark.
#
#   make driver   build/driver, with the proved archive build/libmortarsedge.a (proved first if need be)
#   make ctest    the tests of the C side
#   make sanitize the driver, the header's functions and the live comparison under the compiler's checks of addresses and
#                 undefined behaviour
#   make test     the gate: everything proved from nothing, then the tests of the C side over that archive
#   make mutants  wrong simulators, finish checks, converters and live rigs, which the comparisons have to find
#   make bench    times of library and simulator
#   make instructions   instructions of both, by callgrind
#   make clean    removes build/
#   make tools, toolstest, examples, install, uninstall   the command: tools/tools.mk

CFLAGS ?= -O2
CXXFLAGS ?= -O2
WARNINGS = -Wall -Wextra -Wpedantic -Wconversion -Werror
CCALL = $(CC) -std=c11 $(WARNINGS) $(CFLAGS) -Iinclude
SANITIZE = -O1 -g -fsanitize=address,undefined -fno-sanitize-recover=all

# Seven parts, each compiled by itself: a function that parts share is compiled for each, and into its one caller there.
# LIVE=standin takes the live rig of the simulator instead of the proved one.
LIVE ?= proved
LIVE_standin = build/liblive_standin.a
LIVE_proved = crates/live/out/liblive.a crates/live_step/out/liblive_step.a crates/live_dispatch/out/liblive_dispatch.a
PARTS = crates/driver_c/out/libdriver_c.a crates/planner_c/out/libplanner_c.a crates/chooser_c/out/libchooser_c.a \
    crates/step_panel/out/libstep_panel.a $(LIVE_$(LIVE))
ARCHIVE = build/libmortarsedge.a
PROVED = crates.txt $(shell find crates -name out -prune -o -type f -print)
HEADER = include/mortarsedge.h
DRIVER = driver/driver.c driver/file.c driver/live.c driver/logs.c driver/say.c
SIMULATOR = bench/simulator.c bench/sim_plan.c bench/sim_start.c bench/sim_step.c bench/sim_call.c \
    bench/sim_run.c bench/sim_deliver.c bench/sim_move.c
SIM_LIVE = bench/sim_live.c bench/sim_image.c bench/sim_limits.c bench/sim_ask.c
GENERATOR = bench/generate.c bench/damage.c bench/make_plan.c bench/make_steps.c bench/draft.c
BENCHMARK = bench/benchmark.c bench/timing.c bench/tool_times.c bench/call_times.c bench/live_times.c bench/sim_logs.c bench/sim_convert.c \
    bench/cases.c bench/make_plan.c bench/make_steps.c bench/draft.c $(SIM_LIVE)
CONVERTER = bench/converter.c bench/guarded.c bench/sim_convert.c
REPEATS = bench/repeats.c bench/make_repeats.c bench/rounds.c bench/damage.c bench/make_plan.c bench/draft.c
COMPARISON = bench/differential.c bench/tally.c bench/guarded.c
RIG_VECTORS = bench/rig_vectors.c bench/whole_file.c bench/sim_ask.c
STACK = bench/stack.c bench/cases.c bench/guarded.c
LIVE_TEST = bench/live.c bench/live_calls.c bench/live_damage.c bench/live_doctor.c bench/guarded.c
BENCH_HEADERS = $(wildcard bench/*.h) $(HEADER)

SEED = 1
COUNT = 20000

.PHONY: driver ctest sanitize test mutants bench instructions clean
.DELETE_ON_ERROR:

driver: build/driver

# How a part is made, in its crate's folder. The gate takes the libraries that `rt ci` has just proved (scripts/over_ci.py).
PART = rt lib

define part
crates/$(1)/out/lib$(1).a: $$(PROVED)
	cd crates/$(1) && $$(PART)
	touch $$@
endef
$(foreach it,driver_c planner_c chooser_c step_panel live live_step live_dispatch,$(eval $(call part,$(it))))

# One part at a time: they stand on the same libraries.
crates/planner_c/out/libplanner_c.a: crates/driver_c/out/libdriver_c.a
crates/chooser_c/out/libchooser_c.a: crates/planner_c/out/libplanner_c.a
crates/step_panel/out/libstep_panel.a: crates/chooser_c/out/libchooser_c.a
crates/live/out/liblive.a: crates/step_panel/out/libstep_panel.a
crates/live_step/out/liblive_step.a: crates/live/out/liblive.a
crates/live_dispatch/out/liblive_dispatch.a: crates/live_step/out/liblive_step.a

$(ARCHIVE): $(PARTS) | build
	rm -f $@
	printf 'CREATE $@\n$(PARTS:%=ADDLIB %\n)SAVE\nEND\n' | ar -M

build:
	mkdir -p build

# The stand-in has the library's names and no other: a test has a simulator of its own beside it.
build/liblive_standin.a: bench/live_standin.c $(SIM_LIVE) $(SIMULATOR) $(BENCH_HEADERS) | build
	$(CCALL) -r -nostdlib -o build/live_standin.o bench/live_standin.c $(SIM_LIVE) $(SIMULATOR)
	objcopy --wildcard --keep-global-symbol='mortarsedge_*' build/live_standin.o
	rm -f $@
	ar rcs $@ build/live_standin.o

build/driver: $(DRIVER) $(wildcard driver/*.h) $(HEADER) $(ARCHIVE) | build
	$(CCALL) -o $@ $(DRIVER) $(ARCHIVE)

# The header as C99, C11 and C++11.
build/header_c%: driver/header_test.c $(HEADER) $(ARCHIVE) | build
	$(CC) -std=c$* $(WARNINGS) $(CFLAGS) -Iinclude -o $@ driver/header_test.c $(ARCHIVE)

build/header_cxx%: driver/header_test.c $(HEADER) $(ARCHIVE) | build
	$(CXX) -std=c++$* $(WARNINGS) $(CXXFLAGS) -Iinclude -o $@ -x c++ driver/header_test.c -x none $(ARCHIVE)

build/vectors: bench/vectors.c bench/whole_file.c $(SIMULATOR) $(BENCH_HEADERS) | build
	$(CCALL) -o $@ bench/vectors.c bench/whole_file.c $(SIMULATOR)

build/rig_vectors: $(RIG_VECTORS) $(SIMULATOR) $(BENCH_HEADERS) | build
	$(CCALL) -o $@ $(RIG_VECTORS) $(SIMULATOR)

build/panels: bench/panels.c bench/whole_file.c $(SIM_LIVE) $(SIMULATOR) $(BENCH_HEADERS) $(ARCHIVE) | build
	$(CCALL) -o $@ bench/panels.c bench/whole_file.c $(SIM_LIVE) $(SIMULATOR) $(ARCHIVE)

build/calls: bench/calls.c $(SIMULATOR) $(BENCH_HEADERS) | build
	$(CCALL) -o $@ bench/calls.c $(SIMULATOR)

build/finish_vectors: bench/finish_vectors.c bench/sim_finish.c $(SIMULATOR) $(BENCH_HEADERS) | build
	$(CCALL) -o $@ bench/finish_vectors.c bench/sim_finish.c $(SIMULATOR)

build/finish: bench/finish.c bench/guarded.c bench/sim_finish.c $(GENERATOR) $(SIMULATOR) $(BENCH_HEADERS) $(ARCHIVE) | build
	$(CCALL) -o $@ bench/finish.c bench/guarded.c bench/sim_finish.c $(GENERATOR) $(SIMULATOR) $(ARCHIVE)

build/finish_times: bench/finish_times.c bench/timing.c bench/sim_finish.c bench/draft.c $(SIMULATOR) $(BENCH_HEADERS) $(ARCHIVE) | build
	$(CCALL) -o $@ bench/finish_times.c bench/timing.c bench/sim_finish.c bench/draft.c $(SIMULATOR) $(ARCHIVE)

build/repeats_vectors: bench/repeats_vectors.c $(CONVERTER) $(SIMULATOR) $(BENCH_HEADERS) $(ARCHIVE) | build
	$(CCALL) -DHELD=mortarsedge_convert -o $@ bench/repeats_vectors.c $(CONVERTER) $(SIMULATOR) $(ARCHIVE)

build/repeats: $(REPEATS) $(CONVERTER) $(SIMULATOR) $(BENCH_HEADERS) $(ARCHIVE) | build
	$(CCALL) -DHELD=mortarsedge_convert -o $@ $(REPEATS) $(CONVERTER) $(SIMULATOR) $(ARCHIVE)

build/old_plans: bench/old_plans.c $(HEADER) $(ARCHIVE) | build
	$(CCALL) -o $@ bench/old_plans.c $(ARCHIVE)

build/differential: $(COMPARISON) $(GENERATOR) $(SIMULATOR) $(BENCH_HEADERS) $(ARCHIVE) | build
	$(CCALL) -o $@ $(COMPARISON) $(GENERATOR) $(SIMULATOR) $(ARCHIVE)

build/live: $(LIVE_TEST) $(GENERATOR) $(SIM_LIVE) $(SIMULATOR) $(BENCH_HEADERS) $(ARCHIVE) | build
	$(CCALL) -o $@ $(LIVE_TEST) $(GENERATOR) $(SIM_LIVE) $(SIMULATOR) $(ARCHIVE)

# The test of the tests: both sides are the simulator.
build/live_standin: $(LIVE_TEST) $(GENERATOR) $(SIM_LIVE) $(SIMULATOR) $(BENCH_HEADERS) build/liblive_standin.a | build
	$(CCALL) -o $@ $(LIVE_TEST) $(GENERATOR) $(SIM_LIVE) $(SIMULATOR) build/liblive_standin.a

build/benchmark: $(BENCHMARK) $(SIMULATOR) $(BENCH_HEADERS) $(ARCHIVE) | build
	$(CCALL) -o $@ $(BENCHMARK) $(SIMULATOR) $(ARCHIVE)

build/logs: bench/logs.c bench/sim_logs.c driver/logs.c driver/logs.h $(GENERATOR) $(SIMULATOR) $(BENCH_HEADERS) $(ARCHIVE) | build
	$(CCALL) -o $@ bench/logs.c bench/sim_logs.c driver/logs.c $(GENERATOR) $(SIMULATOR) $(ARCHIVE)

build/stack: $(STACK) $(GENERATOR) $(SIMULATOR) $(BENCH_HEADERS) $(ARCHIVE) | build
	$(CCALL) -o $@ $(STACK) $(GENERATOR) $(SIMULATOR) $(ARCHIVE)

HEADER_TESTS = build/header_c99 build/header_c11 build/header_cxx11

ctest: build/driver $(HEADER_TESTS) build/vectors build/old_plans build/differential build/logs build/stack build/calls build/panels \
    build/finish_vectors build/finish build/repeats_vectors build/repeats build/live
	build/header_c99
	build/header_c11
	build/header_cxx11
	driver/test.sh build/driver crates/trace_program/data
	build/vectors crates/vectors_test/data/s103.bin crates/vectors_test/data/edges.bin
	build/calls crates/vectors_test/data/calls.bin
	build/panels crates/panel_test/data/panel.bin
	scripts/replay_test.sh crates/dispatch_program/out/dispatch_program crates/trace_program/out/trace_program crates/trace_program/data/rig.plan crates/edges_test/data/over.plan
	scripts/chase_test.sh crates/chase_program/out/chase_program crates/trace_program/out/trace_program
	build/old_plans bench/data/one_level.bin
	build/differential $(SEED) $(COUNT)
	build/logs crates/logs_test/data/logs.bin $(SEED) 2000
	build/repeats_vectors crates/repeats_test/data/repeats.bin
	build/repeats $(SEED) $(COUNT)
	scripts/finish_test.sh crates/finish_program/out/finish_program crates/finish_program/data
	build/finish_vectors crates/finish_test/data/finish.bin
	build/finish $(SEED) $(COUNT)
	build/live $(SEED) 400 10000
	build/stack $(SEED) 1000

sanitize: $(ARCHIVE) | build
	$(CCALL) $(SANITIZE) -o build/driver_sanitized $(DRIVER) $(ARCHIVE)
	$(CCALL) $(SANITIZE) -o build/header_sanitized driver/header_test.c $(ARCHIVE)
	$(CCALL) $(SANITIZE) -o build/live_sanitized $(LIVE_TEST) $(GENERATOR) $(SIM_LIVE) $(SIMULATOR) $(ARCHIVE)
	build/header_sanitized
	build/live_sanitized $(SEED) 40 1000
	driver/test.sh build/driver_sanitized crates/trace_program/data

test:
	scripts/gate.sh

mutants: $(ARCHIVE) | build
	CC="$(CC)" CFLAGS="$(CFLAGS)" bench/mutants.sh
	CC="$(CC)" CFLAGS="$(CFLAGS)" bench/finish_mutants.sh crates/finish_test/data/finish.bin
	CC="$(CC)" CFLAGS="$(CFLAGS)" bench/live_mutants.sh

bench: build/benchmark build/finish_times build/panels
	build/panels bench/data/wide_panel.bin 101
	build/benchmark 101
	build/finish_times
	build/benchmark --logs
	build/benchmark --convert
	build/benchmark --calls
	build/benchmark --live

instructions: build/benchmark
	bench/instructions.sh build/benchmark

clean:
	rm -rf build

include tools/tools.mk
