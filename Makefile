# The library for C and C++: make, make check, make install, make uninstall.
# It is installed below PREFIX, and with DESTDIR in front of that, to be packed.
PREFIX ?= /usr/local
DESTDIR ?=

to := $(DESTDIR)$(PREFIX)
headers := include/chaloenpik.h include/chaloenpik_words.h
version := $(shell sed -n 's/^#define CHALOENPIK_VERSION "\(.*\)"$$/\1/p' include/chaloenpik.h)

.PHONY: all check install uninstall

all:
	@tools/c/archive
	@cp target/staticlib/libexports.a target/libchaloenpik.a
	@echo target/libchaloenpik.a

check:
	tests/c

install: all
	install -d "$(to)/include" "$(to)/lib/pkgconfig"
	install -m 644 $(headers) "$(to)/include"
	install -m 644 target/libchaloenpik.a "$(to)/lib"
	sed 's/@version@/$(version)/' tools/c/chaloenpik.pc.in >"$(to)/lib/pkgconfig/chaloenpik.pc"
	@[ "$$(uname -m)" = x86_64 ] || echo "make: the library is for x86-64, so programs for $$(uname -m) can't be linked with it" >&2

uninstall:
	rm -f $(headers:%="$(to)/%") "$(to)/lib/libchaloenpik.a" "$(to)/lib/pkgconfig/chaloenpik.pc"
