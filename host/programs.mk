# The programs that a reader of the README runs, the quoting desk, the inspector and the short example; and the installed copy.

DEMO_OBJECTS := $(addprefix target/host/,demo.o ours.o old.o)
INSPECT_SOURCES := $(wildcard host/inspect*.c)
INSPECT_OBJECTS := $(patsubst host/%.c,target/host/%.o,$(INSPECT_SOURCES))
PREFIX := /usr/local
VERSION := $(shell sed -n 's/^Version: //p' host/inarumpit.pc)

.PHONY: demo demo-test inspect inspect-test example install uninstall install-test

## a list drawn while the table changes under it, and what the old store's rule made of it
demo: target/host/demo
	@$(HOST_RUN) target/host/demo

### the demo, held to its stored transcript
demo-test: target/host/demo
	@$(HOST_RUN) target/host/demo >target/host/demo.out
	@diff host/demo.expected target/host/demo.out
	@echo 'demo: as expected'

target/host/demo: $(DEMO_OBJECTS) $(ARCHIVE)
	@$(HOST_CC) -static $(DEMO_OBJECTS) $(ARCHIVE) -o $@

## a small store with three scans under way, in words and as a picture
inspect: target/host/inarumpit-inspect target/host/sample
	@mkdir -p target/host/store
	@$(HOST_RUN) target/host/sample running target/host/store
	@cd target/host/store && $(HOST_RUN) ../inarumpit-inspect desk table shelf
	@cd target/host/store && $(HOST_RUN) ../inarumpit-inspect --svg desk table shelf >store.svg
	@echo 'The same as a picture: target/host/store/store.svg'

### the inspector on clean, running, full, large and hostile stores
inspect-test: target/host/inarumpit-inspect target/host/sample
	@CC='$(HOST_CC) $(HOST_CFLAGS)' RUN='$(HOST_RUN)' host/inspect_test $(INSPECT_SOURCES) $(ARCHIVE)

target/host/inarumpit-inspect: $(INSPECT_OBJECTS) $(ARCHIVE)
	@$(HOST_CC) -static $(INSPECT_OBJECTS) $(ARCHIVE) -o $@

target/host/sample: target/host/sample.o $(ARCHIVE)
	@$(HOST_CC) -static target/host/sample.o $(ARCHIVE) -o $@

target/host/%.o: host/%.c $(wildcard host/*.h) include/inarumpit.h | host-tools
	@mkdir -p target/host
	@$(HOST_CC) $(HOST_CFLAGS) -c $< -o $@

# A document's own text: the fenced block after the line <!-- NAME -->.
BLOCK = awk -v mark='<!-- $(1) -->' '$$0 == mark { found = 1; next } \
    found && /^```/ { if (inside) exit; inside = 1; next } inside' $(2)

target/host/example.c target/host/example.expected &: README.md
	@mkdir -p target/host
	@$(call BLOCK,example,README.md) >target/host/example.c
	@$(call BLOCK,example output,README.md) >target/host/example.expected

target/host/restart.c target/host/restart.expected &: docs/HOST.md
	@mkdir -p target/host
	@$(call BLOCK,restart,docs/HOST.md) >target/host/restart.c
	@$(call BLOCK,restart output,docs/HOST.md) >target/host/restart.expected

# The example with the largest table and a budget of 1, so that next pauses at every empty slot.
target/host/example-paused.c: target/host/example.c
	@sed 's/SLOTS = 8, ENTRIES = 16, BUDGET = 100 /SLOTS = 16384, ENTRIES = 32768, BUDGET = 1 /' $< >$@
	@grep -q 'BUDGET = 1 ' $@ || { echo 'example: T, R and the budget are not where they were' >&2; rm $@; exit 1; }

### the programs that README and HOST.md show write what they show there
example: target/host/example.c target/host/example-paused.c target/host/restart.c $(ARCHIVE) | host-tools
	@set -e; shows() { \
	    $(HOST_CC) $(HOST_CFLAGS) -static target/host/$$1.c $(ARCHIVE) -o target/host/$$1; \
	    $(HOST_RUN) target/host/$$1 >target/host/$$1.out; \
	    diff target/host/$$2.expected target/host/$$1.out; \
	    echo "example: $$3"; \
	}; \
	shows example example 'as the README shows'; \
	shows example-paused example 'the same with T = 16384, R = 32768 and a budget of 1'; \
	shows restart restart 'after a restart, as docs/HOST.md shows'

## archive, header, pkg-config file, inspector: PREFIX=/opt/inarumpit, DESTDIR=.. to stage
install: $(ARCHIVE) target/host/inarumpit-inspect
	@host/installed put '$(DESTDIR)$(PREFIX)'

## removes what install has put there, by the same PREFIX
uninstall:
	@host/installed remove '$(DESTDIR)$(PREFIX)'

### the example again, against an installed copy and nothing else
install-test: target/host/example.c target/host/example.expected $(ARCHIVE) target/host/inarumpit-inspect | host-tools
	@tools/need pkg-config:pkgconf
	@set -e; prefix=$$(mktemp -d); trap 'rm -r "$$prefix"' EXIT; \
	$(MAKE) --no-print-directory install PREFIX="$$prefix" DESTDIR= >/dev/null; \
	cp target/host/example.c "$$prefix"; \
	export PKG_CONFIG_PATH="$$prefix/lib/pkgconfig"; \
	$(HOST_CC) -std=c99 -Wall -Wextra -Werror -static "$$prefix/example.c" \
	    $$(pkg-config --cflags --libs 'inarumpit = $(VERSION)') -o "$$prefix/example"; \
	$(HOST_RUN) "$$prefix/example" >"$$prefix/example.out"; \
	diff target/host/example.expected "$$prefix/example.out"; \
	rm "$$prefix"/example*; \
	$(MAKE) --no-print-directory uninstall PREFIX="$$prefix" DESTDIR= >/dev/null; \
	left=$$(find "$$prefix" -type f); [ -z "$$left" ] || { echo "install-test: not removed: $$left" >&2; exit 1; }
	@echo 'install-test: the example runs against the installed copy, and nothing is left of it'
