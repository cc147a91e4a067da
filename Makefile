# The commands of the README. `make test` is the gate.
.PHONY: test demo replay install bench tools bench-tools c-tests
.NOTPARALLEL:
.DELETE_ON_ERROR:

# What the C side builds stands under target/.
HOST := target/host
ARCHIVE := target/staticlib/libpastrulow.a
PAGE_ARCHIVE := target/staticlib/libpage_test.a
REPLAY := target/bin/replay

# What replay is run over: the traces that were written by hand, the recorded sequences as one, and random ones, by their seeds.
TRACES := $(wildcard host/traces/*.trace) $(addprefix $(HOST)/,forms.trace sequences.trace $(patsubst %,random-%.trace,1 2 3 4))

# Archive and programs are for x86-64. Elsewhere what links the archive is cross-compiled, and all is run by qemu-user, which
# finds the C library of rt's programs where the cross compiler has it; host/tools.sh sees to both.
ifeq ($(shell uname -m),x86_64)
C := gcc
CXX := g++
RUN :=
else
C := x86_64-linux-gnu-gcc
CXX := x86_64-linux-gnu-g++
RUN := qemu-x86_64 -L /usr/x86_64-linux-gnu
endif
WARN := -Wall -Wextra -Werror -pedantic
CFLAGS := -std=c11 -O2 $(WARN) -Iinclude

# Where `make install` puts things; DESTDIR goes before all of them.
PREFIX ?= /usr/local
libdir := $(PREFIX)/lib
includedir := $(PREFIX)/include
VERSION := $(shell sed -n 's/^.define PASTRULOW_VERSION UINT64_C(\([0-9]*\))$$/\1/p' include/pastrulow.h)

# The gate comes last: its last line is read.
test: c-tests
	@sh host/gate.sh

c-tests: tools $(addprefix $(HOST)/,demo demo-c++ demo-installed demo-later header header-bytes trial start lengths slices \
    page differential journal vectors_bochs bochs.txt vectors_sequences sequences.txt vectors_linux linux-guest.bin \
    linux-guest.txt guest-high.bin guest-high.txt twin) $(REPLAY) $(TRACES)
	$(RUN) $(HOST)/demo >$(HOST)/demo.out
	$(RUN) $(HOST)/demo-c++ >$(HOST)/demo-c++.out
	cmp $(HOST)/demo.out $(HOST)/demo-c++.out
	$(RUN) $(HOST)/demo-installed >$(HOST)/demo-installed.out
	cmp $(HOST)/demo.out $(HOST)/demo-installed.out
	$(RUN) $(HOST)/demo-later >$(HOST)/demo-later.out 2>&1; [ $$? -eq 1 ]
	echo "pastrulow.h has version $(LATER), the archive version $(VERSION)" | cmp - $(HOST)/demo-later.out
	$(RUN) $(HOST)/header
	$(RUN) $(HOST)/header-bytes
	$(RUN) $(HOST)/trial
	$(RUN) $(HOST)/start
	$(RUN) $(HOST)/lengths
	$(RUN) $(HOST)/slices
	$(RUN) $(HOST)/page
	$(RUN) $(HOST)/vectors_bochs $(HOST)/bochs.txt
	$(RUN) $(HOST)/vectors_sequences $(HOST)/sequences.txt
	$(RUN) $(HOST)/vectors_linux $(HOST)/linux-guest.bin $(HOST)/linux-guest.txt
	$(RUN) $(HOST)/vectors_linux $(HOST)/guest-high.bin $(HOST)/guest-high.txt
	$(RUN) $(HOST)/differential
	$(RUN) $(HOST)/journal
	sh host/replay.sh $(HOST) "$(RUN) $(REPLAY)" "$(RUN) $(HOST)/twin" $(TRACES)
	awk -f $(TEST)/sequences.awk $(HOST)/sequences.txt $(HOST)/sequences.printed

# The example host; then the trial program, which rt proves first.
demo: tools $(HOST)/demo
	@$(RUN) $(HOST)/demo
	@sh host/prove.sh run trial trial target/bin/trial
	@$(RUN) target/bin/trial

# The program that replays a trace from its standard input, and the words that run it here.
replay: tools $(REPLAY)
	@echo $(RUN) $(REPLAY) '<TRACE'

install: $(ARCHIVE)
	install -d "$(DESTDIR)$(includedir)" "$(DESTDIR)$(libdir)/pkgconfig"
	install -m 644 include/pastrulow.h "$(DESTDIR)$(includedir)"
	install -m 644 $(ARCHIVE) "$(DESTDIR)$(libdir)"
	sed -e 's|@PREFIX@|$(PREFIX)|' -e 's|@LIBDIR@|$(libdir)|' -e 's|@INCLUDEDIR@|$(includedir)|' \
	    -e 's|@VERSION@|$(VERSION)|' host/pastrulow.pc.in >"$(DESTDIR)$(libdir)/pkgconfig/pastrulow.pc"

bench: bench-tools $(addprefix $(HOST)/,bench-archive bench-baseline differential-baseline journal-baseline twin-baseline \
    libcount.so) $(REPLAY)
	@$(RUN) $(HOST)/differential-baseline 1 0 800
	@$(RUN) $(HOST)/journal-baseline 1 0 4000
	@sh bench/run.sh $(HOST) $(REPLAY)

tools:
	@sh host/tools.sh

bench-tools:
	@sh host/tools.sh bench

CRATES := crates.txt host/prove.sh $(shell find crates -name out -prune -o \( -name '*.rt' -o -name '*.antt' \) -print)

$(ARCHIVE): $(CRATES)
	@sh host/prove.sh lib pastrulow libpastrulow.a $@

# What page.c holds the header's function to, as an archive of its own: the library has it for callers in Rattle alone.
$(PAGE_ARCHIVE): $(CRATES)
	@sh host/prove.sh lib page_test libpage_test.a $@

$(REPLAY): $(CRATES)
	@sh host/prove.sh run replay replay $@

$(HOST):
	@mkdir -p $(HOST)

TEST := host/tests
MODEL := $(addprefix $(TEST)/model_,image.c memory.c walk.c buffer.c calls.c translate.c many.c)
DIFFERENTIAL := $(addprefix $(TEST)/,differential.c call.c call_sides.c lent.c sparse.c guest.c random.c events.c) $(MODEL)
TWIN := $(addprefix $(TEST)/,twin.c events.c) $(MODEL)
MAKING := $(addprefix $(TEST)/,traces.c call.c guest.c random.c)
JOURNAL := $(addprefix $(TEST)/,journal.c journal_history.c journal_made.c model_journal.c model_history.c model_image.c \
    events.c machine.c random.c)
HEADERS := $(wildcard include/*.h $(TEST)/*.h)

$(HOST)/demo: host/demo.c $(HEADERS) $(ARCHIVE) | $(HOST)
	$(C) $(CFLAGS) -static -o $@ host/demo.c $(ARCHIVE)

$(HOST)/demo-c++.o: host/demo.c $(HEADERS) | $(HOST)
	$(CXX) -x c++ -std=c++17 -O2 $(WARN) -Iinclude -c -o $@ host/demo.c

$(HOST)/demo-c++: $(HOST)/demo-c++.o $(ARCHIVE)
	$(C) -static -o $@ $^

# From what an install puts where C projects look, found by pkg-config alone.
INSTALLED := $(abspath $(HOST)/installed)
$(HOST)/demo-installed: Makefile host/demo.c host/pastrulow.pc.in $(HEADERS) $(ARCHIVE) | $(HOST)
	$(MAKE) --no-print-directory install DESTDIR=$(INSTALLED) PREFIX=/usr/local
	flags=$$(PKG_CONFIG_PATH=$(INSTALLED)/usr/local/lib/pkgconfig PKG_CONFIG_SYSROOT_DIR=$(INSTALLED) \
	    pkg-config --cflags --libs pastrulow) && \
	    $(C) -std=c11 -O2 $(WARN) -static -o $@ host/demo.c $$flags

# With a header of another version than the archive's.
LATER := $(VERSION)0
$(HOST)/later/pastrulow.h: include/pastrulow.h | $(HOST)
	mkdir -p $(@D)
	sed 's/^\(.define PASTRULOW_VERSION UINT64_C\)($(VERSION))$$/\1($(LATER))/' $< >$@

$(HOST)/demo-later: host/demo.c $(HOST)/later/pastrulow.h $(ARCHIVE)
	$(C) -I$(HOST)/later $(CFLAGS) -static -o $@ host/demo.c $(ARCHIVE)

# The second reads words as a host does that is not known to be little-endian.
$(HOST)/header-bytes: CFLAGS += -DPASTRULOW_LITTLE_ENDIAN=0
$(HOST)/header $(HOST)/header-bytes: $(TEST)/header.c $(TEST)/check.c $(TEST)/machine.c $(HEADERS) $(ARCHIVE) | $(HOST)
	$(C) $(CFLAGS) -static -o $@ $(TEST)/header.c $(TEST)/check.c $(TEST)/machine.c $(ARCHIVE)

$(HOST)/trial: $(TEST)/trial.c $(TEST)/machine.c $(HEADERS) $(ARCHIVE) | $(HOST)
	$(C) $(CFLAGS) -static -o $@ $(TEST)/trial.c $(TEST)/machine.c $(ARCHIVE)

START := $(addprefix $(TEST)/,start.c check.c machine.c random.c)
$(HOST)/start: $(START) $(HEADERS) $(ARCHIVE) | $(HOST)
	$(C) $(CFLAGS) -static -o $@ $(START) $(ARCHIVE)

$(HOST)/lengths: $(TEST)/lengths.c $(TEST)/check.c $(HEADERS) $(ARCHIVE) | $(HOST)
	$(C) $(CFLAGS) -static -o $@ $(TEST)/lengths.c $(TEST)/check.c $(ARCHIVE)

SLICES := $(addprefix $(TEST)/,slices.c check.c machine.c sparse.c)
$(HOST)/slices: $(SLICES) $(HEADERS) $(ARCHIVE) | $(HOST)
	$(C) $(CFLAGS) -static -o $@ $(SLICES) $(ARCHIVE)

PAGE := $(addprefix $(TEST)/,page.c check.c random.c sparse.c)
$(HOST)/page: $(PAGE) $(HEADERS) $(PAGE_ARCHIVE) | $(HOST)
	$(C) $(CFLAGS) -static -o $@ $(PAGE) $(PAGE_ARCHIVE)

VECTORS := $(addprefix $(TEST)/,machine.c vectors.c sparse.c)
$(HOST)/vectors_%: $(TEST)/vectors_%.c $(VECTORS) $(HEADERS) $(ARCHIVE) | $(HOST)
	$(C) $(CFLAGS) -static -o $@ $(TEST)/vectors_$*.c $(VECTORS) $(ARCHIVE)

$(HOST)/differential: $(DIFFERENTIAL) $(HEADERS) $(ARCHIVE) | $(HOST)
	$(C) $(CFLAGS) -static -o $@ $(DIFFERENTIAL) $(ARCHIVE)

$(HOST)/journal: $(JOURNAL) $(HEADERS) $(ARCHIVE) | $(HOST)
	$(C) $(CFLAGS) -static -o $@ $(JOURNAL) $(ARCHIVE)

$(HOST)/twin: $(TWIN) $(HEADERS) | $(HOST)
	$(C) $(CFLAGS) -static -o $@ $(TWIN)

$(HOST)/traces: $(MAKING) $(HEADERS) | $(HOST)
	$(C) $(CFLAGS) -static -o $@ $(MAKING)

$(HOST)/random-%.trace: $(HOST)/traces
	$(RUN) $(HOST)/traces $* 30000 >$@

# The trace that the gate runs replay on.
$(HOST)/forms.trace: crates/replay/stdin $(HOST)/forms.out
	cp $< $@

$(HOST)/forms.out: crates/replay/stdout | $(HOST)
	cp $< $@

# Each sequence begins by a start, and stores zeros over what the one before left.
$(HOST)/sequences.trace: $(HOST)/sequences.txt
	awk -F '\t=' '!/^#/ { print $$1 }' $< >$@

$(HOST)/%.txt: host/vectors/%.txt.xz | $(HOST)
	xz -dc $< >$@

$(HOST)/%.bin: host/vectors/%.bin.xz | $(HOST)
	xz -dc $< >$@

# Plain C of the same interface. Its chains of ors are shortest as they are written, and memset is the C library's, as the
# archive's is.
BASELINE := $(HOST)/baseline.o $(HOST)/baseline_journal.o
$(BASELINE): $(HOST)/%.o: bench/%.c $(wildcard bench/*.h) include/pastrulow.h | $(HOST)
	$(C) -std=c11 -O3 -fno-tree-reassoc -fno-pie -mstringop-strategy=libcall $(WARN) -Iinclude -c -o $@ bench/$*.c

$(HOST)/differential-baseline: $(DIFFERENTIAL) $(HEADERS) $(BASELINE)
	$(C) $(CFLAGS) -static -o $@ $(DIFFERENTIAL) $(BASELINE)

$(HOST)/journal-baseline: $(JOURNAL) $(HEADERS) $(BASELINE)
	$(C) $(CFLAGS) -static -o $@ $(JOURNAL) $(BASELINE)

# The twin over the plain C.
$(HOST)/twin-baseline: $(TEST)/twin.c $(HEADERS) $(BASELINE)
	$(C) $(CFLAGS) -DCALLS=pastrulow -static -o $@ $(TEST)/twin.c $(BASELINE)

$(HOST)/bench-archive: bench/bench.c include/pastrulow.h $(ARCHIVE) | $(HOST)
	$(C) $(CFLAGS) -static -o $@ bench/bench.c $(ARCHIVE)

$(HOST)/bench-baseline: bench/bench.c include/pastrulow.h $(BASELINE)
	$(C) $(CFLAGS) -static -o $@ bench/bench.c $(BASELINE)

# The plugin runs in qemu-user itself, so it is compiled for this machine.
$(HOST)/libcount.so: bench/count.c | $(HOST)
	gcc -std=c11 -O2 $(WARN) -shared -fPIC -o $@ bench/count.c
