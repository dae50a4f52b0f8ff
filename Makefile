# What one does with the program, from nothing; the kit's command `rt` has to be on the PATH.
PREFIX ?= /usr/local
PROGRAM = crates/cgtx/out/cgtx

# Proves and builds the program and the library for C, with as many processors as there are; what is built and unchanged is left as it is.
all:
	tests/prove --program

# Shows the program at work on its stored schedule, built with checks and not proved: a minute and a half.
try:
	cd crates/cgtx && rt try < stdin

# The merge gate.
check:
	./gate

install: all
	install -D -m 755 $(PROGRAM) $(DESTDIR)$(PREFIX)/bin/cgtx
	install -D -m 644 manual/cgtx.1 $(DESTDIR)$(PREFIX)/share/man/man1/cgtx.1
	install -D -m 644 manual/cgtx.bash $(DESTDIR)$(PREFIX)/share/bash-completion/completions/cgtx
	install -D -m 644 include/cgtx.h $(DESTDIR)$(PREFIX)/include/cgtx.h
	tests/c_library --archive $(DESTDIR)$(PREFIX)/lib/libcgtx.a
	mkdir -p $(DESTDIR)$(PREFIX)/lib/pkgconfig
	sed 's|@PREFIX@|$(PREFIX)|' include/cgtx.pc.in > $(DESTDIR)$(PREFIX)/lib/pkgconfig/cgtx.pc

# The same as all, and the processor seconds of each crate.
seconds:
	tests/seconds tests/prove --program

clean:
	rm -rf crates/*/out

.PHONY: all try check install seconds clean
