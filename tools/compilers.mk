# How C programs are built that link the archive, and how they are run: the archive is x86-64, so on another processor by
# the cross compiler and under the emulator. The one place that knows.

ARCHIVE := target/staticlib/libinarumpit.a

NATIVE_NEED := gcc:gcc /usr/include/stdio.h:libc6-dev

ifeq ($(shell uname -m),x86_64)
HOST_CC := gcc
HOST_RUN :=
HOST_NEED := $(NATIVE_NEED)
else
HOST_CC := x86_64-linux-gnu-gcc
HOST_RUN := qemu-x86_64
HOST_NEED := x86_64-linux-gnu-gcc:gcc-x86-64-linux-gnu qemu-x86_64:qemu-user \
    /usr/x86_64-linux-gnu/include/stdio.h:libc6-dev-amd64-cross
endif

HOST_CFLAGS := -std=c99 -Wall -Wextra -Werror -O2 -Iinclude

.PHONY: archive host-tools

## the library, proved and built
archive: $(ARCHIVE)

# Built again when anything that it is proved from has changed.
$(ARCHIVE): crates.txt $(shell find crates -name out -prune -o -type f \( -name '*.rt' -o -name '*.antt' \) -print)
	@tools/archive $@

host-tools:
	@tools/need $(HOST_NEED)
