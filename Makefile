# Builds the library and the programs from the proved crates, and installs them, with the header and the pages of the
# manual: make && make install PREFIX=/usr/local
PREFIX ?= /usr/local
LIBRARY = target/lib
PROGRAMS = target/bin
VERSION = 0.2.0
SHARED = libteleport.so.2

all: $(LIBRARY)/libteleport.a $(LIBRARY)/$(SHARED) $(LIBRARY)/libteleport.so $(LIBRARY)/teleport.pc programs

.PHONY: all programs install FORCE

# rt knows what has changed; one of its commands runs at a time.
.NOTPARALLEL:

programs: $(PROGRAMS)/teleport $(PROGRAMS)/teleport_tools

$(PROGRAMS)/%: FORCE
	tools/build $* $@

$(LIBRARY)/libteleport.a: FORCE
	tools/build teleport_c $@

$(LIBRARY)/$(SHARED): $(LIBRARY)/libteleport.a
	$(CC) -shared -Wl,-soname,$(SHARED) -o $@ -Wl,--whole-archive $< -Wl,--no-whole-archive

# What -lteleport finds: the linker goes on to the library. The loader refuses this file, so that a program that asks for
# a library of this name, whose rows are of another width, does not start.
$(LIBRARY)/libteleport.so: FORCE
	mkdir -p $(LIBRARY)
	rm -f $@
	printf '%s\n' 'INPUT($(SHARED))' > $@

$(LIBRARY)/teleport.pc: FORCE
	mkdir -p $(LIBRARY)
	printf '%s\n' 'Name: teleport' 'Description: JSON text, Teleport schemas' 'Version: $(VERSION)' 'Cflags: -I$(PREFIX)/include' 'Libs: -L$(PREFIX)/lib -lteleport' > $@

install: all
	install -d $(DESTDIR)$(PREFIX)/bin $(DESTDIR)$(PREFIX)/include $(DESTDIR)$(PREFIX)/lib/pkgconfig $(DESTDIR)$(PREFIX)/share/man/man1
	install -m 755 $(PROGRAMS)/teleport $(DESTDIR)$(PREFIX)/bin/teleport
	install -m 755 $(PROGRAMS)/teleport_tools $(DESTDIR)$(PREFIX)/bin/teleport-tools
	install -m 644 man/teleport.1 man/teleport-tools.1 $(DESTDIR)$(PREFIX)/share/man/man1
	install -m 644 include/teleport.h $(DESTDIR)$(PREFIX)/include
	install -m 644 $(LIBRARY)/libteleport.a $(DESTDIR)$(PREFIX)/lib
	install -m 755 $(LIBRARY)/$(SHARED) $(DESTDIR)$(PREFIX)/lib
	install -m 644 $(LIBRARY)/libteleport.so $(DESTDIR)$(PREFIX)/lib
	install -m 644 $(LIBRARY)/teleport.pc $(DESTDIR)$(PREFIX)/lib/pkgconfig
