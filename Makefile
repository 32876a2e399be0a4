# The C library: include/prs.h and one archive, libprs.a, of what the Rattle crates export to C (x86-64, ELF).
#
#   make                          proves the crates and builds target/libprs.a; needs the Rattle kit's rt on PATH, and ar and nm
#   make install PREFIX=/usr      the header, the archive and prs.pc for pkg-config; DESTDIR is put before PREFIX
#   make uninstall PREFIX=/usr
#   make check                    installs under target/ and replays the listing and the test vectors from C and C++
PREFIX ?= /usr/local
DESTDIR ?=
RT ?= rt
AR ?= ar
NM ?= nm
INSTALL ?= install

crates := card_c bench_c image_c
archives := $(foreach crate,$(crates),crates/$(crate)/out/lib$(crate).a)
sources := crates.txt $(shell find crates -name out -prune -o -type f \( -path '*/src/*' -o -path '*/specs/*' -o -path '*/proofs/*' \) -print)
prefix := $(abspath $(PREFIX))
place := $(DESTDIR)$(prefix)

.PHONY: all install uninstall check
# one proof at a time: the crates stand on the same libraries
.NOTPARALLEL:
.DELETE_ON_ERROR:

all: target/libprs.a

$(archives): $(sources)
	@command -v $(RT) >/dev/null || { echo "make: $(RT) is missing: install the Rattle kit and put its bin folder on PATH" >&2; exit 1; }
	@rm -f $@
	cd $(patsubst %/out/,%,$(dir $@)) && $(RT) lib
	@[ -f $@ ] || { echo "make: $(RT) lib left no $@: crates.txt must call the crate a staticlib" >&2; exit 1; }

# Members and symbols of the three must all differ, and the symbols must be the header's.
target/libprs.a: $(archives) include/prs.h
	@for tool in $(AR) $(NM); do command -v $$tool >/dev/null || { echo "make: $$tool is missing: install binutils" >&2; exit 1; }; done
	@twice=$$(for archive in $(archives); do $(AR) t $$archive; done | sort | uniq -d); \
	    [ -z "$$twice" ] || { echo "make: members of one name: $$twice" >&2; exit 1; }
	rm -rf target/members $@
	mkdir -p target/members
	cd target/members && for archive in $(archives); do $(AR) x ../../$$archive || exit 1; done
	$(AR) rcs $@ target/members/*
	rm -rf target/members
	@$(NM) -g --defined-only $@ | sed -n 's/^[0-9a-f]* [A-Z] //p' | sort >target/exported
	@sed -n 's/^[a-z].* \(prs_[a-z]*\)(.*/\1/p' include/prs.h | sort | diff - target/exported \
	    || { echo "make: the archive's symbols (>) are not the header's entries (<)" >&2; exit 1; }

install: target/libprs.a
	$(INSTALL) -d $(place)/include $(place)/lib/pkgconfig
	$(INSTALL) -m 644 include/prs.h $(place)/include/prs.h
	$(INSTALL) -m 644 target/libprs.a $(place)/lib/libprs.a
	sed 's|@PREFIX@|$(prefix)|' prs.pc.in >$(place)/lib/pkgconfig/prs.pc
	chmod 644 $(place)/lib/pkgconfig/prs.pc

uninstall:
	rm -f $(place)/include/prs.h $(place)/lib/libprs.a $(place)/lib/pkgconfig/prs.pc

check:
	tests/replay.sh
