# make demo       prove and build the program, and time its built-in block
# make test       the gate: every proof, every must-fail edit, the tests in Rattle, the header's text, the program from outside
# make bench      the benchmarks, each beside a plain C version in the same run
# make test-door  the static library from C: an example with every call, and random scripts of calls, held against a
#                 second implementation in C
# make placer     a small placer in C and in Rust that moves cells by their slacks, through the static library

CC = gcc
CXX = g++
CFLAGS = -O3 -Wall -Wextra

.PHONY: demo test bench test-door placer clean

# the crates that the static library is made of
DOOR_CRATES = reader measure delay graph ledger paths sheet timing held door
DOOR = crates/door/out/libdoor.a

demo:
	cd crates/ripotyngue && rt run -- demo
	mkdir -p target/bin
	cp crates/ripotyngue/out/ripotyngue target/bin/

test:
	.ci/run

test-door: target/door/two_selectors target/door/scripts
	$(CXX) -fsyntax-only -Wall -Wextra -Iinclude -x c++ include/ripotyngue.h
	target/door/two_selectors
	target/door/scripts

SANITIZED = -O2 -g -Wall -Wextra -fsanitize=address,undefined -fno-sanitize-recover=all -Iinclude

target/door/two_selectors: examples/door/two_selectors.c include/ripotyngue.h $(DOOR)
	mkdir -p target/door
	$(CC) $(SANITIZED) -o $@ examples/door/two_selectors.c $(DOOR)

target/door/scripts: $(wildcard tests/door/*.c tests/door/*.h) include/ripotyngue.h $(DOOR)
	mkdir -p target/door
	$(CC) $(SANITIZED) -o $@ $(filter %.c,$^) $(DOOR)

placer: target/placer/placer_c $(DOOR)
	cd examples/placer/rust && cargo build --release --offline --target-dir ../../../target/placer
	sh examples/placer/run.sh

target/placer/placer_c: examples/placer/placer.c include/ripotyngue.h $(DOOR)
	mkdir -p target/placer
	$(CC) $(CFLAGS) -Iinclude -o $@ examples/placer/placer.c $(DOOR)

$(DOOR): $(foreach crate,$(DOOR_CRATES),$(wildcard crates/$(crate)/src/*.rt))
	cd crates/door && rt lib
	touch $@

# rt run proves and builds a program before it runs it
bench: target/bench/reader_bench target/bench/door target/bench/growth
	target/bench/reader_bench
	mkdir -p target/bin
	cd crates/bench_graph && rt run
	cp crates/bench_graph/out/bench_graph target/bin/
	CC=$(CC) sh bench/pairs.sh
	cd crates/bench_timing && rt run
	cp crates/bench_timing/out/bench_timing target/bin/
	CC=$(CC) sh bench/timing.sh
	target/bench/door
	target/bench/growth >target/bench/speed.csv
	python3 bench/growth.py target/bench/speed.csv target/bench/speed.svg

target/bench/reader_bench: bench/reader.c bench/reader.h bench/reader_bench.c crates/bench_reader/out/libbench_reader.a
	mkdir -p target/bench
	$(CC) $(CFLAGS) -o $@ bench/reader.c bench/reader_bench.c crates/bench_reader/out/libbench_reader.a

# a block behind the door, and the same block for the passes in plain C
BLOCKS = bench/lent.c bench/lent.h bench/blocks.c bench/blocks.h bench/passes.c bench/passes.h include/ripotyngue.h

target/bench/door target/bench/growth: target/bench/%: bench/%.c $(BLOCKS) $(DOOR)
	mkdir -p target/bench
	$(CC) $(CFLAGS) -Iinclude -o $@ $(filter %.c,$^) $(DOOR)

crates/bench_reader/out/libbench_reader.a: $(wildcard crates/reader/src/*.rt crates/bench_reader/src/*.rt)
	cd crates/bench_reader && rt lib

clean:
	rm -rf target crates/*/out
