# The library beside C written for speed, call by call, and beside the second program, SQLite and LMDB.

BENCH_TURNS := 40
BENCH_ROUNDS := 10
BENCH_CFLAGS := -std=c99 -Wall -Wextra -Werror -O2
FAST_CFLAGS := -std=c99 -Wall -Wextra -Werror -Wno-psabi -O3
BENCH_SOURCES := bench/main.c bench/clock.c bench/sqlite.c bench/lmdb.c
BENCH_NEED := $(NATIVE_NEED) /usr/include/sqlite3.h:libsqlite3-dev /usr/include/lmdb.h:liblmdb-dev qemu-x86_64:qemu-user
# The second program decodes everything at each call: 32 records of a list show what each costs.
BENCH_LIBRARY := -DCALLS=inarumpit_ -DSUBJECT=library -DDRAWS=UINT32_MAX -c bench/lent.c
BENCH_SECOND := -DCALLS=second_ -DSUBJECT=second -DDRAWS=32 -c bench/lent.c
BENCH_FILES := $(wildcard bench/*.[ch]) second/store.c second/store.h $(ARCHIVE)
# The emulator that counts instructions, and a processor with vectors that it knows.
BENCH_EMULATOR := qemu-x86_64 -cpu max -L /usr/x86_64-linux-gnu
BENCH_COUNTED := -march=x86-64-v3
FAST_ROUNDS := 40

.PHONY: bench bench-tools agree-fast

ifeq ($(HOST_RUN),)
## what a call costs here: the figures and pictures of docs/PERFORMANCE.md written again
bench: target/bench/four target/bench/calls target/bench/calls-counted target/bench/counter.so
	@bench/run '$(BENCH_TURNS)' '$(BENCH_ROUNDS)' here $(BENCH_EMULATOR)
BENCH_PEERS := -lsqlite3 -llmdb
FAST_FOR := -march=native
FAST_RUN :=
else
bench: target/bench/four target/bench/three target/bench/calls-counted target/bench/counter.so
	@bench/run '$(BENCH_TURNS)' '$(BENCH_ROUNDS)' emulated $(BENCH_EMULATOR)
BENCH_FOREIGN := target/bench/foreign/usr
BENCH_PEERS := -I$(BENCH_FOREIGN)/include $(BENCH_FOREIGN)/lib/x86_64-linux-gnu/libsqlite3.a \
    $(BENCH_FOREIGN)/lib/x86_64-linux-gnu/liblmdb.a -lm
FAST_FOR := $(BENCH_COUNTED)
FAST_RUN := $(BENCH_EMULATOR)
target/bench/four: | $(BENCH_FOREIGN)
endif

bench-tools:
	@tools/need $(BENCH_NEED)

### the C that make bench measures against and the second program side by side
agree-fast: target/bench/agree-fast
	@$(FAST_RUN) target/bench/agree-fast rounds '$(FAST_ROUNDS)' seed '$(SEED)'
	@echo 'agree-fast: bench/fast.c, in the place of the library, answers as the second program does'

target/bench/agree-fast: bench/fast.c second/store.h $(SECOND_OBJECTS)
	@mkdir -p target/bench
	@$(HOST_CC) $(FAST_CFLAGS) $(FAST_FOR) -DCALLS=inarumpit_ -static $< $(SECOND_OBJECTS) -o $@

# All four, for the archive's processor.
target/bench/four: $(BENCH_FILES) | host-tools bench-tools
	@mkdir -p target/bench
	@$(HOST_CC) $(BENCH_CFLAGS) $(BENCH_LIBRARY) -o target/bench/library.o
	@$(HOST_CC) $(BENCH_CFLAGS) $(BENCH_SECOND) -o target/bench/second.o
	@$(HOST_CC) $(BENCH_CFLAGS) -DWITH_LIBRARY $(BENCH_SOURCES) second/store.c target/bench/library.o \
	    target/bench/second.o $(ARCHIVE) $(BENCH_PEERS) -o $@

# Without the library, for this processor.
target/bench/three: $(BENCH_FILES) | bench-tools
	@mkdir -p target/bench
	@gcc $(BENCH_CFLAGS) $(BENCH_SECOND) -o target/bench/second-here.o
	@gcc $(BENCH_CFLAGS) $(BENCH_SOURCES) second/store.c target/bench/second-here.o -lsqlite3 -llmdb -o $@

# The library and fast.c, call by call; fast.c for this very processor, and for the emulated one.
target/bench/calls: BENCH_MARCH := -march=native
target/bench/calls-counted: BENCH_MARCH := $(BENCH_COUNTED)
target/bench/calls target/bench/calls-counted: $(BENCH_FILES) | host-tools bench-tools
	@mkdir -p $@.parts
	@$(HOST_CC) $(FAST_CFLAGS) $(BENCH_MARCH) -DCALLS=fast_ -c bench/fast.c -o $@.parts/fast.o
	@$(HOST_CC) $(BENCH_CFLAGS) -DCALLS=no_ -c bench/nothing.c -o $@.parts/nothing.o
	@$(HOST_CC) $(BENCH_CFLAGS) -DCALLS=inarumpit_ -DSUBJECT=library_calls -c bench/side.c -o $@.parts/library-side.o
	@$(HOST_CC) $(BENCH_CFLAGS) -DCALLS=fast_ -DSUBJECT=fast_calls -c bench/side.c -o $@.parts/fast-side.o
	@$(HOST_CC) $(BENCH_CFLAGS) -DCALLS=no_ -DSUBJECT=no_calls -c bench/side.c -o $@.parts/no-side.o
	@$(HOST_CC) $(BENCH_CFLAGS) -static bench/calls.c bench/clock.c $@.parts/*.o $(ARCHIVE) -o $@

# Plugins of qemu up to 8 have interface 1; later ones take 2.
target/bench/counter.so: bench/counter.c | bench-tools
	@mkdir -p target/bench
	@gcc $(BENCH_CFLAGS) -shared -fPIC -DINTERFACE=$$(qemu-x86_64 --version | awk '{ print $$3 + 0 < 9 ? 1 : 2; exit }') \
	    $< -o $@

target/bench/foreign/usr:
	@bench/foreign target/bench/foreign libsqlite3-dev liblmdb-dev
