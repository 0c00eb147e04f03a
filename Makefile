# Installs the programs and the library, without the toolchain and without proving anything: release/ holds them, built (Linux on
# x86-64).
#   make install [PREFIX=/usr/local] [DESTDIR=..]      make uninstall      make dist      make deb      make wheel
PREFIX = /usr/local
override PREFIX := $(abspath $(PREFIX))
bin = $(DESTDIR)$(PREFIX)/bin
libexec = $(DESTDIR)$(PREFIX)/libexec/redo
man = $(DESTDIR)$(PREFIX)/share/man/man1
doc = $(DESTDIR)$(PREFIX)/share/doc/redo
completions = $(DESTDIR)$(PREFIX)/share/bash-completion/completions
libdir = $(PREFIX)/lib
lib = $(DESTDIR)$(libdir)
include = $(DESTDIR)$(PREFIX)/include
static = $(wildcard release/libredo-x86_64-linux.a)
version = $(shell sed -n 's/^version=//p' release/start)

.PHONY: all install uninstall dist deb wheel
all:
	@echo "Nothing is to be made: ./redo starts the program. 'make install PREFIX=..' installs it."

install:
	install -d $(bin) $(libexec) $(man) $(doc) $(completions) $(lib)/pkgconfig $(include)
	install -m 755 release/redo-x86_64-linux $(libexec)/redo
	sed 's|@PROGRAM@|$(PREFIX)/libexec/redo/redo|' release/start >$(bin)/redo
	for name in redo_log redo_check; do \
	  install -m 755 release/$$name-x86_64-linux $(libexec)/$$name && \
	  sed 's|@LIBEXEC@|$(PREFIX)/libexec/redo|' release/look >$(bin)/$$name || exit; \
	done
	chmod 755 $(bin)/redo $(bin)/redo_log $(bin)/redo_check
	install -m 644 docs/redo.1 docs/redo_log.1 docs/redo_check.1 $(man)
	install -m 644 LICENSE-MIT LICENSE-APACHE THIRD-PARTY $(doc)
	install -m 644 release/completion.bash $(completions)/redo
	install -m 644 release/completion_look.bash $(completions)/redo_log
	install -m 644 release/completion_look.bash $(completions)/redo_check
	install -m 644 release/libredo-x86_64-linux.so $(lib)/libredo.so.1
	ln -sf libredo.so.1 $(lib)/libredo.so
	for file in $(static); do install -m 644 $$file $(lib)/libredo.a || exit; done
	install -m 644 capi/redo.h capi/redo.hpp $(include)
	sed 's|@PREFIX@|$(PREFIX)|; s|@LIBDIR@|$(libdir)|; s|@VERSION@|$(version)|' capi/redo.pc.in >$(lib)/pkgconfig/redo.pc
	chmod 644 $(lib)/pkgconfig/redo.pc
	install -d $(libexec)/python/redo/shell
	install -m 644 capi/redo_shell.py $(libexec)/python
	install -m 644 capi/redo/*.py capi/redo/py.typed $(libexec)/python/redo
	install -m 644 capi/redo/shell/*.py $(libexec)/python/redo/shell
	ln -sfr $(lib)/libredo.so.1 $(libexec)/python/redo/libredo.so.1

uninstall:
	rm -f $(bin)/redo $(bin)/redo_log $(bin)/redo_check $(man)/redo.1 $(man)/redo_log.1 $(man)/redo_check.1
	rm -f $(completions)/redo $(completions)/redo_log $(completions)/redo_check
	rm -f $(libexec)/redo $(libexec)/redo_log $(libexec)/redo_check
	rm -f $(lib)/libredo.so $(lib)/libredo.so.1 $(lib)/libredo.a $(lib)/pkgconfig/redo.pc $(include)/redo.h $(include)/redo.hpp
	rm -f $(doc)/LICENSE-MIT $(doc)/LICENSE-APACHE $(doc)/THIRD-PARTY
	rm -rf $(libexec)/python
	-rmdir $(libexec) $(doc)

# what runs and reads without the sources: unpack it and `make install`
dist:
	tar -czf redo-$(version)-x86_64-linux.tar.gz --exclude=__pycache__ --transform 's|^|redo-$(version)/|' \
	  README.md CHANGELOG.md LICENSE-MIT LICENSE-APACHE THIRD-PARTY Makefile docs release/redo-x86_64-linux release/redo_log-x86_64-linux \
	  release/redo_check-x86_64-linux release/start release/look release/deb release/completion.bash release/completion_look.bash \
	  release/libredo-x86_64-linux.so $(static) \
	  capi/redo.h capi/redo.hpp capi/redo.pc.in capi/redo capi/redo_shell.py capi/pyproject.toml capi/build_wheel.py

# a package for Debian and Ubuntu: `apt install ./redo_*_amd64.deb`
deb:
	release/deb

# a package for Python, with the library in it: `pip install ./redo_store-*.whl`
wheel:
	python3 capi/build_wheel.py
