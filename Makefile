# Three commands do everything: `make run` builds the programs and reads an example, `make test` is the gate, `make report` makes the page
# of the example unit. `make audit` writes the rules beside the definitions, for a sceptic.
# Beyond them: `make` builds programs and libraries, `make install` and `make uninstall` take PREFIX and DESTDIR, `make dist` packs it
# all for a PC without the toolchain.
.PHONY: all run report audit build library install uninstall dist test bench clean

VERSION := $(shell cat VERSION)
PREFIX = /usr/local
DESTDIR =

all: library

# The example: a map, and the samples that the sender makes of one write, into the reader.
run: build
	@target/host/bussend write 0x000A 0x3C | target/host/busread examples/scratch.map

# The example unit of the open day: its page, and the first lines of it. It is not ready, which is status 1.
PAGE = target/open-day.html
report: library
	@tools/couplingnut report examples/open-day.txt examples/open-day.sr -o $(PAGE) || [ $$? -eq 1 ]
	@tools/couplingnut report examples/open-day.txt examples/open-day.sr | head -n 2
	@echo "the page: $(PAGE)"

# The rules beside the definitions, the contracts and the tests: one page.
AUDIT = target/audit.html
audit:
	@tools/audit -o $(AUDIT)
	@echo "the page: $(AUDIT)"

# The two programs with an exit status are C over proved code, and tell the version of the file VERSION.
COMPILE = gcc -std=c11 -O2 -Wall -Wextra -Werror -D_DEFAULT_SOURCE -DCOUPLINGNUT_VERSION='"$(shell cat VERSION)"'

# What is proved: the files of all crates, and their folders, which tell of a file that is gone. What is built of them is built anew when
# one is newer.
PROVED := crates.txt $(shell find crates -mindepth 2 -type d \( -name out -o -name must-fail \) -prune -o -print)
LIBRARY = target/staticlib/libcouplingnut.a
RECORDING = target/staticlib/libtext_recording.a
target/staticlib/libcouplingnut.a target/staticlib/libhost_benchmark.a: target/staticlib/lib%.a: $(PROVED)
	@.ci/made lib $* $@
# The proved reading asks the toolchain's errno.pic.o for the reason of a failure; the archive gets it, so that it links by itself.
KIT_C := $(dir $(realpath $(shell command -v rt)))../c
$(RECORDING): $(PROVED)
	@.ci/made lib text_recording_c $@.proved
	@cd $(@D) && ar x $(KIT_C)/libos_c.a errno.pic.o && cp -p $(@F).proved $(@F).new && ar rD $(@F).new errno.pic.o && rm errno.pic.o && \
		touch -r $(@F).proved $(@F).new && mv $(@F).new $(@F)
target/bin/busread: $(PROVED)
	@.ci/made run busread $@

# Proves what the programs are made of, unless that is done, and builds them. It says which crates it has proved, on standard error;
# target/log has the rest.
build: target/bin/busread $(LIBRARY) $(RECORDING)
	@mkdir -p target/host
	@$(COMPILE) -o target/host/bussend -Ihost host/bussend/*.c host/message.c $(LIBRARY)
	@$(COMPILE) -o target/host/busread host/busread.c host/message.c $(RECORDING)

# The library for hosts, static and shared: the proved calls, and the words for their numbers (host/message.c). Linking stops at text
# that would have to be relocated, so that the archive's position-independence is tested too. The shared library's other names are links,
# which are made where it is installed: `rt ci` refuses a repository with links in it.
SONAME = libcouplingnut.so.0
SHARED = libcouplingnut.so.$(VERSION)
library: build
	@rm -rf target/lib && mkdir -p target/lib
	@cp $(LIBRARY) target/lib
	@gcc -std=c11 -O2 -fPIC -Wall -Wextra -Werror -c -o target/lib/words.o host/message.c
	@ar rD target/lib/libcouplingnut.a target/lib/words.o && rm target/lib/words.o
	@gcc -shared -Wl,-soname,$(SONAME) -Wl,-z,text,-z,defs,-z,relro,-z,now -o target/lib/$(SONAME) \
		-Wl,--whole-archive target/lib/libcouplingnut.a -Wl,--no-whole-archive

# What is installed, under PREFIX. PCPREFIX is the prefix that pkg-config gives.
INSTALLED = bin/busread bin/bussend bin/couplingnut bin/mkmap $(HEADERS:host/%=include/%) lib/libcouplingnut.a lib/$(SHARED) lib/$(SONAME) \
	lib/libcouplingnut.so lib/pkgconfig/couplingnut.pc $(MODULE:python/%=$(PYTHON)/%) $(REPORT:python/%=$(PYTHON)/%) \
	$(DECODER:sigrok/%=$(DECODERS)/%) share/couplingnut/VERSION $(MAN:%=share/man/%)
MAN = man1/busread.1 man1/bussend.1 man1/couplingnut.1 man1/mkmap.1 man3/couplingnut.3
HEADERS = host/couplingnut.h host/couplingnut_order.h
PYTHON = lib/python3/dist-packages
MODULE = $(wildcard python/couplingnut/*.py)
REPORT = $(wildcard python/couplingnut_report/*.py python/couplingnut_report/*.css)
# Where libsigrokdecode looks for decoders, under /usr and /usr/local.
DECODERS = share/libsigrokdecode/decoders
DECODER = $(wildcard sigrok/couplingnut/*.py)
PCPREFIX = $(PREFIX)
TO = $(DESTDIR)$(PREFIX)
# What an older installation had is taken away first: the Python module as one file.
install: library
	@rm -rf $(TO)/$(PYTHON)/couplingnut.py $(TO)/$(PYTHON)/__pycache__/couplingnut.*
	@install -d $(sort $(dir $(INSTALLED:%=$(TO)/%)))
	@install -m 755 target/host/busread target/host/bussend tools/couplingnut tools/mkmap $(TO)/bin
	@install -m 644 $(HEADERS) $(TO)/include
	@install -m 644 target/lib/libcouplingnut.a $(TO)/lib
	@install -m 644 target/lib/$(SONAME) $(TO)/lib/$(SHARED)
	@ln -sf $(SHARED) $(TO)/lib/$(SONAME)
	@ln -sf $(SONAME) $(TO)/lib/libcouplingnut.so
	@sed -e 's|@PREFIX@|$(PCPREFIX)|' -e 's|@VERSION@|$(VERSION)|' host/couplingnut.pc.in >target/lib/couplingnut.pc
	@install -m 644 target/lib/couplingnut.pc $(TO)/lib/pkgconfig
	@install -m 644 $(MODULE) $(TO)/$(PYTHON)/couplingnut
	@install -m 644 $(REPORT) $(TO)/$(PYTHON)/couplingnut_report
	@install -m 644 $(DECODER) $(TO)/$(DECODERS)/couplingnut
	@install -m 644 VERSION $(TO)/share/couplingnut
	@for page in $(MAN); do install -m 644 "man/$${page#*/}" "$(TO)/share/man/$$page"; done

uninstall:
	@rm -rf $(TO)/$(PYTHON)/couplingnut $(TO)/$(PYTHON)/couplingnut_report $(TO)/$(DECODERS)/couplingnut
	@rm -f $(INSTALLED:%=$(TO)/%)
	@-rmdir $(TO)/share/couplingnut 2>/dev/null || true

# An archive and a .deb in target/dist.
dist:
	@host/dist

test:
	@.ci/run

# Times the proved side against the second implementation, and draws docs/performance.svg (docs/PERFORMANCE.md).
bench: build target/staticlib/libhost_benchmark.a
	@cargo build --release --quiet --offline -p couplingnut-benchmark
	@cargo run --release --quiet --offline -p couplingnut-benchmark -- measure

clean:
	rm -rf target
