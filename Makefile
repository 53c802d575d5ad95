# Builds libdoilycairn.a, the examples in C and C++ and the tool; installs the header, the archive, the pkg-config file and the tool where it is built.

VERSION := $(shell awk '/define DOILYCAIRN_VERSION_/ {v = v dot $$3; dot = "."} END {print v}' include/doilycairn.h)
PREFIX ?= /usr/local
DESTDIR ?=
CFLAGS ?= -O2 -g
CXXFLAGS ?= -O2 -g

LIB_DIR = crates/doilycairn/out
ARCHIVE = $(LIB_DIR)/libdoilycairn.a
# What is built here but for the archive and the program stands in target/.
OUT = target/examples
EXAMPLES = $(OUT)/encode $(OUT)/play $(OUT)/part $(OUT)/loop $(OUT)/dsp_file $(OUT)/compare $(OUT)/refusals $(OUT)/undo $(OUT)/floating $(OUT)/round_trip
WARNINGS = -Wall -Wextra -Wconversion -pedantic
PC = target/doilycairn.pc
TOOL = tool/target/release/doilycairn
PAGES = target/pages
SHARE = $(DESTDIR)$(PREFIX)/share
DOCUMENTS = $(wildcard LICENSE docs/FORMAT.md) NOTICE
CARGO ?= cargo

all: lib ## the library and the examples
	$(MAKE) examples

help: ## this list
	@echo 'make [TARGET] [PREFIX=/usr/local] [DESTDIR=] [LIB_DIR=$(LIB_DIR)]'
	@sed -n 's/^\([a-z-]*\):.*## \(.*\)/  \1\t\2/p' Makefile | expand -t 16

lib: ## proves the library and writes the archive; quick where nothing changed
	cd crates/doilycairn && rt lib

examples: $(EXAMPLES) ## the examples in C and C++

$(OUT)/%: examples/%.c examples/support.c examples/support.h include/doilycairn.h $(ARCHIVE)
	@mkdir -p $(OUT)
	$(CC) -std=c11 $(WARNINGS) $(CFLAGS) -Iinclude $< examples/support.c $(ARCHIVE) -lm -o $@

$(OUT)/round_trip: examples/round_trip.cpp include/doilycairn.h $(ARCHIVE)
	@mkdir -p $(OUT)
	$(CXX) -std=c++17 $(WARNINGS) $(CXXFLAGS) -Iinclude $< $(ARCHIVE) -o $@

$(ARCHIVE):
	@echo 'There is no $(ARCHIVE): run `make lib`, or name its folder with LIB_DIR=.' >&2; exit 1

tool: ## the command-line program; proves and writes the archive first where there is none
	@test -f $(ARCHIVE) || $(MAKE) lib
	DOILYCAIRN_LIB_DIR=$(abspath $(LIB_DIR)) $(CARGO) build --release --offline --manifest-path tool/Cargo.toml --target-dir tool/target

test: examples ## the examples end to end
	examples/test.sh $(OUT)

# Written anew each time, since PREFIX may differ.
$(PC): doilycairn.pc.in FORCE
	@mkdir -p target
	sed -e 's|@PREFIX@|$(PREFIX)|' -e 's|@VERSION@|$(VERSION)|' doilycairn.pc.in > $@

install: $(ARCHIVE) $(PC) ## header, archive, pkg-config file, licences and format, and the program where it is built
	install -d $(DESTDIR)$(PREFIX)/include $(DESTDIR)$(PREFIX)/lib/pkgconfig $(SHARE)/doc/doilycairn
	install -m 644 include/doilycairn.h $(DESTDIR)$(PREFIX)/include
	install -m 644 $(ARCHIVE) $(DESTDIR)$(PREFIX)/lib
	install -m 644 $(PC) $(DESTDIR)$(PREFIX)/lib/pkgconfig
	install -m 644 $(DOCUMENTS) $(SHARE)/doc/doilycairn
	@if [ -f $(TOOL) ]; then $(MAKE) install-tool; else echo 'The tool is not built, and not installed: run `make tool` first.'; fi

# The manual page and the completions, as the program itself writes them.
pages:
	@mkdir -p $(PAGES)
	$(TOOL) man > $(PAGES)/doilycairn.1
	for shell in bash zsh fish; do $(TOOL) completions $$shell > $(PAGES)/$$shell || exit 1; done

install-tool: pages ## the program, its manual page and completions alone
	install -d $(DESTDIR)$(PREFIX)/bin $(SHARE)/man/man1 $(SHARE)/doc/doilycairn
	install -m 755 $(TOOL) $(DESTDIR)$(PREFIX)/bin
	install -m 644 $(PAGES)/doilycairn.1 $(SHARE)/man/man1
	install -D -m 644 $(PAGES)/bash $(SHARE)/bash-completion/completions/doilycairn
	install -D -m 644 $(PAGES)/zsh $(SHARE)/zsh/site-functions/_doilycairn
	install -D -m 644 $(PAGES)/fish $(SHARE)/fish/vendor_completions.d/doilycairn.fish
	install -m 644 $(DOCUMENTS) $(SHARE)/doc/doilycairn

clean: ## removes what was built here, but for the archive and the program
	rm -rf $(OUT) $(PC) $(PAGES)

FORCE:
.PHONY: all help lib examples tool test install install-tool pages clean FORCE
