# Installs the programs gatt_shell, hci_bridge and gihandop-keys, the library for C, the documents and the examples.
#
#     make install            in /usr/local, or in PREFIX
#     make install DESTDIR=/tmp/package PREFIX=/usr LIBDIR=/usr/lib/x86_64-linux-gnu
#     make install TARGET=aarch64-unknown-linux-gnu CC=aarch64-linux-gnu-gcc AR=aarch64-linux-gnu-ar
#     make uninstall          with the same variables, removes the files again
#
# Rattle's command rt proves and makes the archive and gatt_shell. This file makes neither: if one is
# missing, or is not the file that was proved from these sources, it says what makes it, and installs nothing.

VERSION = 0.2.0

PREFIX = /usr/local
BINDIR = $(PREFIX)/bin
LIBDIR = $(PREFIX)/lib
INCLUDEDIR = $(PREFIX)/include
DATADIR = $(PREFIX)/share
DOCDIR = $(DATADIR)/doc/gihandop
UNITDIR = $(PREFIX)/lib/systemd/system
COMPLETIONDIR = $(DATADIR)/bash-completion/completions
ZSHDIR = $(DATADIR)/zsh/site-functions
FISHDIR = $(DATADIR)/fish/vendor_completions.d
DESTDIR =

CFLAGS = -O2
INSTALL = install

# The processor for which rt proved the outputs, if it is another one than x86-64.
TARGET =
OUT = out$(if $(TARGET),/$(TARGET))
ARCHIVE = crates/gihandop_c/$(OUT)/libgihandop_c.a
PROGRAM = crates/gatt_shell/$(OUT)/gatt_shell
BUILD = $(OUT)

# With white space a name is several words for the shell, and `make uninstall` would remove what they name.
FOLDERS = PREFIX BINDIR LIBDIR INCLUDEDIR DATADIR DOCDIR UNITDIR COMPLETIONDIR ZSHDIR FISHDIR DESTDIR BUILD
$(foreach it,$(FOLDERS),$(if $(filter-out 1,$(words [$($(it))])),$(error $(it) has white space: "$($(it))")))

PROVE = tools/prove$(if $(TARGET), --target $(TARGET))
UNITS = $(wildcard bridge/*.service)
FISH = $(wildcard completions/*.fish)
# The documents lie as in the repository, with the sources that they link, so that their links lead somewhere.
DOCUMENTS = README.md CHANGELOG.md CONTRIBUTING.md SECURITY.md LICENSE-APACHE LICENSE-MIT LICENSE-THIRD-PARTY \
    $(wildcard docs/*.md docs/*.png docs/schema/*.json) $(wildcard python/*.* python/gihandop/*.*) \
    include/gihandop.h include/gihandop_serve.h c/heap.c c/serve.c $(wildcard rust/examples/*.rs)
EXAMPLES = $(sort $(shell find examples -type f ! -name '*.pyc'))

all: $(ARCHIVE) $(PROGRAM) $(BUILD)/libgihandop_heap.a $(BUILD)/libgihandop_serve.a $(BUILD)/gihandop.pc \
    $(BUILD)/hci_bridge

$(ARCHIVE):
	@echo 'there is no $@: `$(PROVE) gihandop_c` proves the host and makes it' >&2; exit 1

$(PROGRAM):
	@echo 'there is no $@: `$(PROVE) gatt_shell` proves the program and makes it' >&2; exit 1

# The memory over malloc. A program that has heap.o with a pool of its own takes none from here.
$(BUILD)/libgihandop_heap.a: c/heap.c
	mkdir -p $(BUILD)
	$(CC) -std=c11 $(CPPFLAGS) $(CFLAGS) -c -o $(BUILD)/heap.o c/heap.c
	rm -f $@
	$(AR) rcsD $@ $(BUILD)/heap.o

# The loop of gihandop_serve.h.
$(BUILD)/libgihandop_serve.a: c/serve.c include/gihandop_serve.h include/gihandop.h
	mkdir -p $(BUILD)
	$(CC) -std=c11 $(CPPFLAGS) $(CFLAGS) -Iinclude -c -o $(BUILD)/serve.o c/serve.c
	rm -f $@
	$(AR) rcsD $@ $(BUILD)/serve.o

# The serial line to a controller of Linux.
$(BUILD)/hci_bridge: bridge/hci_bridge.c bridge/user_channel.c bridge/channel.h
	mkdir -p $(BUILD)
	$(CC) -std=c11 $(CPPFLAGS) $(CFLAGS) $(LDFLAGS) -o $@ bridge/hci_bridge.c bridge/user_channel.c

.PHONY: all install uninstall check $(BUILD)/gihandop.pc

# The folders may be others than those of the last time.
$(BUILD)/gihandop.pc: c/gihandop.pc.in
	mkdir -p $(BUILD)
	sed -e 's|@PREFIX@|$(PREFIX)|' -e 's|@LIBDIR@|$(LIBDIR)|' -e 's|@INCLUDEDIR@|$(INCLUDEDIR)|' \
	    -e 's|@VERSION@|$(VERSION)|' c/gihandop.pc.in > $@

# What was proved: `tools/release --check` refuses an output of which that is not known.
.PHONY: verdicts
verdicts: $(ARCHIVE) $(PROGRAM)
	mkdir -p $(BUILD)
	tools/release --check $(if $(TARGET),--target $(TARGET)) $(PROGRAM) $(ARCHIVE) > $(BUILD)/VERDICTS

# The units name the programs where they are installed.
INSTALLED_PATHS = s!/usr/bin/(gatt_shell|hci_bridge)!$(BINDIR)/\1!

install: all verdicts
	$(INSTALL) -d $(DESTDIR)$(BINDIR) $(DESTDIR)$(LIBDIR)/pkgconfig $(DESTDIR)$(INCLUDEDIR) \
	    $(DESTDIR)$(DATADIR)/gihandop $(DESTDIR)$(DATADIR)/man/man1 $(DESTDIR)$(UNITDIR) $(DESTDIR)$(COMPLETIONDIR)
	$(INSTALL) -m 755 $(PROGRAM) $(DESTDIR)$(BINDIR)/gatt_shell
	$(INSTALL) -m 755 $(BUILD)/hci_bridge $(DESTDIR)$(BINDIR)/hci_bridge
	$(INSTALL) -m 644 $(ARCHIVE) $(DESTDIR)$(LIBDIR)/libgihandop_c.a
	tools/release --installed $(BUILD)/VERDICTS $(DESTDIR)$(BINDIR)/gatt_shell $(DESTDIR)$(LIBDIR)/libgihandop_c.a
	$(INSTALL) -m 644 $(BUILD)/libgihandop_heap.a $(DESTDIR)$(LIBDIR)/libgihandop_heap.a
	$(INSTALL) -m 644 $(BUILD)/libgihandop_serve.a $(DESTDIR)$(LIBDIR)/libgihandop_serve.a
	$(INSTALL) -m 644 $(BUILD)/gihandop.pc $(DESTDIR)$(LIBDIR)/pkgconfig/gihandop.pc
	$(INSTALL) -m 644 include/gihandop.h include/gihandop_serve.h $(DESTDIR)$(INCLUDEDIR)
	$(INSTALL) -m 644 c/heap.c c/serve.c $(DESTDIR)$(DATADIR)/gihandop
	$(INSTALL) -m 755 tools/keys $(DESTDIR)$(BINDIR)/gihandop-keys
	$(INSTALL) -d $(DESTDIR)$(DATADIR)/gihandop/tools
	ln -sfr $(DESTDIR)$(BINDIR)/gihandop-keys $(DESTDIR)$(DATADIR)/gihandop/tools/keys
	for page in $(MANUAL); do \
	    $(INSTALL) -D -m 644 $$page $(DESTDIR)$(DATADIR)/man/man$${page##*.}/$${page##*/} || exit; \
	done
	$(INSTALL) -m 644 completions/gatt_shell.bash $(DESTDIR)$(COMPLETIONDIR)/gatt_shell
	ln -sf gatt_shell $(DESTDIR)$(COMPLETIONDIR)/hci_bridge
	ln -sf gatt_shell $(DESTDIR)$(COMPLETIONDIR)/gihandop-keys
	$(INSTALL) -D -m 644 completions/_gatt_shell $(DESTDIR)$(ZSHDIR)/_gatt_shell
	$(INSTALL) -d $(DESTDIR)$(FISHDIR)
	$(INSTALL) -m 644 $(FISH) $(DESTDIR)$(FISHDIR)
	for it in $(UNITS); do \
	    sed -E '$(INSTALLED_PATHS)' $$it > $(BUILD)/unit && \
	    $(INSTALL) -m 644 $(BUILD)/unit $(DESTDIR)$(UNITDIR)/$${it##*/} || exit; \
	done
	for it in $(DOCUMENTS) $(EXAMPLES); do \
	    if test -x $$it; then mode=755; else mode=644; fi; \
	    $(INSTALL) -D -m $$mode $$it $(DESTDIR)$(DOCDIR)/$$it || exit; \
	done
	$(INSTALL) -m 644 $(BUILD)/VERDICTS $(DESTDIR)$(DOCDIR)/VERDICTS
	sed -E '$(INSTALLED_PATHS)' examples/device/door.service > $(DESTDIR)$(DOCDIR)/examples/device/door.service

uninstall:
	rm -f $(DESTDIR)$(BINDIR)/gatt_shell $(DESTDIR)$(BINDIR)/hci_bridge $(DESTDIR)$(BINDIR)/gihandop-keys \
	    $(DESTDIR)$(LIBDIR)/libgihandop_c.a \
	    $(DESTDIR)$(LIBDIR)/libgihandop_heap.a $(DESTDIR)$(LIBDIR)/libgihandop_serve.a \
	    $(DESTDIR)$(LIBDIR)/pkgconfig/gihandop.pc $(DESTDIR)$(INCLUDEDIR)/gihandop.h \
	    $(DESTDIR)$(INCLUDEDIR)/gihandop_serve.h
	for page in $(MANUAL); do rm -f $(DESTDIR)$(DATADIR)/man/man$${page##*.}/$${page##*/}; done
	rm -f $(addprefix $(DESTDIR)$(COMPLETIONDIR)/,gatt_shell hci_bridge gihandop-keys) \
	    $(DESTDIR)$(ZSHDIR)/_gatt_shell $(patsubst completions/%,$(DESTDIR)$(FISHDIR)/%,$(FISH)) \
	    $(patsubst bridge/%,$(DESTDIR)$(UNITDIR)/%,$(UNITS))
	rm -rf $(DESTDIR)$(DATADIR)/gihandop $(DESTDIR)$(DOCDIR)

# The manual pages lie in docs/man. After a change of the documents or of the help they are made again.
MANUAL = $(wildcard docs/man/*.[1-9])

.PHONY: manual
manual: $(PROGRAM)
	tools/check/manual $(PROGRAM) docs/man

check: all
	GATT_SHELL=$(PROGRAM) GIHANDOP_ARCHIVE=$(ARCHIVE) tests/pytest -q tests/test_c_*.py tests/test_rust*.py tests/test_install.py
