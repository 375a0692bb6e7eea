# The second program: compared with the library, and with wrong ones.

SECOND_OBJECTS := $(patsubst second/%.c,target/second/%.o,$(wildcard second/*.c))

# Somewhat over a minute under the emulator; the count of calls is the same everywhere.
AGREE_ROUNDS := 400
SECONDS := 600
SEED := 1

.PHONY: agree soak planted spoilt header prototypes

### the library and the second program side by side, and what the header reads
agree: target/second/agree
	@$(HOST_RUN) target/second/agree rounds '$(AGREE_ROUNDS)' seed '$(SEED)'

## agree for as long as is wished: SECONDS=3600 SEED=7
soak: target/second/agree
	@$(HOST_RUN) target/second/agree seconds '$(SECONDS)' seed '$(SEED)'

target/second/agree: $(SECOND_OBJECTS) $(ARCHIVE)
	@$(HOST_CC) -static $(SECOND_OBJECTS) $(ARCHIVE) -o $@

target/second/%.o: second/%.c $(wildcard second/*.h) include/inarumpit.h | host-tools
	@mkdir -p target/second
	@$(HOST_CC) $(HOST_CFLAGS) -c $< -o $@

### wrong programs in the library's place: each has to be caught
planted:
	@tools/need $(NATIVE_NEED)
	@second/planted

### wrong headers: each has to be caught
spoilt:
	@tools/need $(NATIVE_NEED)
	@second/spoilt

WAYS := 'gcc -std=c99 -xc' 'g++ -std=c++98 -Wno-long-long -xc++' 'g++ -std=c++17 -xc++'
STRICT := -Wall -Wextra -Wpedantic -Wconversion -Wsign-conversion -Wshadow -Werror -fsyntax-only -Iinclude
VERSIONS := INARUMPIT_VERSION INARUMPIT_VERSION_MAJOR.INARUMPIT_VERSION_MINOR.INARUMPIT_VERSION_PATCH

### the header in C and C++, plain and for debug builds: no warning; the .pc file's version
header:
	@tools/need $(NATIVE_NEED) g++:g++
	@for way in $(WAYS); do for debug in -U -D; do \
	    case $$way in g++*) casts=-Wold-style-cast ;; *) casts= ;; esac; \
	    echo '#include <inarumpit.h>' | $$way $(STRICT) $$casts $${debug}INARUMPIT_DEBUG - || exit 1; \
	    $$way $(STRICT) $${debug}INARUMPIT_DEBUG second/readings.c second/bounds.c || exit 1; \
	done; done
	@said=$$(echo '$(VERSIONS)' | gcc -E -P -include include/inarumpit.h - | tail -1 | tr -d ' '); \
	    [ "$$said" = '"$(VERSION)"$(VERSION)' ] || \
	    { echo "header: the version is $$said in the header and $(VERSION) in host/inarumpit.pc" >&2; exit 1; }
	@echo 'header: no warning in C99, C++98 and C++17, plain and for debug builds; version $(VERSION) as in inarumpit.pc'

### the header's prototypes are what the library exports
prototypes:
	@tools/prototypes
