# Installs the program `dap` with its manual pages and completions for bash, zsh and fish; the library for C, for pkg-config
# and for Python (`import yarntaupe`); and, which need Python: `dap-gdb`, a debug adapter over gdb, `dap-record`, which makes
# a recording of a session, and `dap-transcripts`, which makes a transcript of one. Nothing is proved or built by a plain
# `make`: `.ci/run` does that.
#
#     make install PREFIX=$HOME/.local    (below /usr/local, where PREFIX is left out)
#     make install DESTDIR=/tmp/stage     (the same paths, below another root, for a package)
#     make uninstall PREFIX=$HOME/.local  (removes what the same words installed; folders that others may use stay)
#     make deb                            (a package for Debian, in out/: scripts/package)
#
# These can be given too: BINDIR, LIBDIR, INCLUDEDIR, PKGCONFIGDIR, PYTHONDIR, MANDIR, SHAREDIR, BASHDIR, ZSHDIR, FISHDIR;
# PROGRAM, the path of the program, and LIBRARY, the folder with the library's files (release).

PREFIX ?= /usr/local
DESTDIR ?=
BINDIR ?= $(PREFIX)/bin
LIBDIR ?= $(PREFIX)/lib
INCLUDEDIR ?= $(PREFIX)/include
PKGCONFIGDIR ?= $(LIBDIR)/pkgconfig
# where the python3 on the PATH looks for modules, as far as that is below PREFIX
PYTHONDIR ?= $(shell scripts/python-folder "$(PREFIX)")
SHAREDIR ?= $(PREFIX)/share/yarntaupe
MANDIR ?= $(PREFIX)/share/man/man1
BASHDIR ?= $(PREFIX)/share/bash-completion/completions
ZSHDIR ?= $(PREFIX)/share/zsh/site-functions
FISHDIR ?= $(PREFIX)/share/fish/vendor_completions.d
INSTALL ?= install

# What is installed as the program: the path that is given, or else release/dap, or what bin/dap becomes where the toolchain is
# there, which may make it first. The shell asks, and not make, so that `make -n install` makes nothing.
PROGRAM ?=
LIBRARY ?= release
PAGES := $(wildcard release/man/*.1)

# The scripts, each in a folder with what it imports. The command is a link to it.
GDB := $(wildcard examples/gdb/*.py)
TOOLS := scripts/recorder.py scripts/streams.py

.PHONY: help install install-program install-library no-library install-scripts uninstall deb

help:
	@sed -n '1,/^$$/s/^# \{0,1\}//p' Makefile

install: install-program $(if $(shell test -r "$(LIBRARY)/yarntaupe.pc" && echo yes),install-library,no-library) install-scripts

install-program:
	program="$(PROGRAM)"; \
	if test -z "$$program"; then \
	    if command -v rt >/dev/null; then program=$$(DAP_WHICH=yes bin/dap); else program=release/dap; fi; \
	fi; \
	test -x "$$program" && $(INSTALL) -D -m 755 "$$program" "$(DESTDIR)$(BINDIR)/dap"
	$(INSTALL) -D -m 644 -t "$(DESTDIR)$(MANDIR)" $(PAGES)
	$(INSTALL) -D -m 644 release/completions/dap.bash "$(DESTDIR)$(BASHDIR)/dap"
	$(INSTALL) -D -m 644 release/completions/_dap "$(DESTDIR)$(ZSHDIR)/_dap"
	$(INSTALL) -D -m 644 release/completions/dap.fish "$(DESTDIR)$(FISHDIR)/dap.fish"

# The names of the shared library are those that the loader and the linker look for. Where it is installed for this machine,
# the loader is told, if that may be done.
install-library: install-program
	version=$$(sed -n 's/^Version: //p' "$(LIBRARY)/yarntaupe.pc") && \
	$(INSTALL) -D -m 644 "$(LIBRARY)/libyarntaupe.so" "$(DESTDIR)$(LIBDIR)/libyarntaupe.so.$$version" && \
	ln -sf "libyarntaupe.so.$$version" "$(DESTDIR)$(LIBDIR)/libyarntaupe.so.0"
	ln -sf libyarntaupe.so.0 "$(DESTDIR)$(LIBDIR)/libyarntaupe.so"
	$(INSTALL) -m 644 "$(LIBRARY)/libyarntaupe.a" "$(DESTDIR)$(LIBDIR)/libyarntaupe.a"
	$(INSTALL) -D -m 644 "$(LIBRARY)/yarntaupe.h" "$(DESTDIR)$(INCLUDEDIR)/yarntaupe.h"
	$(INSTALL) -D -m 644 /dev/null "$(DESTDIR)$(PKGCONFIGDIR)/yarntaupe.pc"
	printf '%s\n' "prefix=$(PREFIX)" "libdir=$(LIBDIR)" "includedir=$(INCLUDEDIR)" >"$(DESTDIR)$(PKGCONFIGDIR)/yarntaupe.pc"
	sed '/^[a-z]*=/d' "$(LIBRARY)/yarntaupe.pc" >>"$(DESTDIR)$(PKGCONFIGDIR)/yarntaupe.pc"
	$(INSTALL) -D -m 644 examples/python/yarntaupe.py "$(DESTDIR)$(PYTHONDIR)/yarntaupe.py"
	sed -i 's#^INSTALLED = .*#INSTALLED = "$(LIBDIR)/libyarntaupe.so.0"#' "$(DESTDIR)$(PYTHONDIR)/yarntaupe.py"
	case "$(DESTDIR)$(LIBDIR)" in /usr/*) ldconfig 2>/dev/null || true ;; esac

no-library:
	@echo "make: $(LIBRARY) has no library for C, so that none is installed: scripts/make-c makes one" >&2

# Their texts name each other as they are called once they are installed.
install-scripts: install-program
	$(INSTALL) -D -m 755 -t "$(DESTDIR)$(SHAREDIR)/gdb" examples/gdb/dap-gdb
	$(INSTALL) -D -m 644 -t "$(DESTDIR)$(SHAREDIR)/gdb" $(GDB) examples/gdb/README.md
	$(INSTALL) -D -m 644 -t "$(DESTDIR)$(SHAREDIR)/tools" $(TOOLS)
	for name in record transcripts; do \
	    $(INSTALL) -D -m 755 scripts/$$name "$(DESTDIR)$(SHAREDIR)/tools/dap-$$name" && \
	    sed -i 's#scripts/\(record\|transcripts\)\>#dap-\1#g; s#bin/dap\>#dap#g' "$(DESTDIR)$(SHAREDIR)/tools/dap-$$name" && \
	    ln -srf "$(DESTDIR)$(SHAREDIR)/tools/dap-$$name" "$(DESTDIR)$(BINDIR)/dap-$$name" || exit; \
	done
	ln -srf "$(DESTDIR)$(SHAREDIR)/gdb/dap-gdb" "$(DESTDIR)$(BINDIR)/dap-gdb"

# What Python made of its files goes too.
uninstall:
	rm -f "$(DESTDIR)$(BINDIR)/dap" $(foreach page,$(notdir $(PAGES)),"$(DESTDIR)$(MANDIR)/$(page)")
	rm -f "$(DESTDIR)$(BASHDIR)/dap" "$(DESTDIR)$(ZSHDIR)/_dap" "$(DESTDIR)$(FISHDIR)/dap.fish"
	rm -f "$(DESTDIR)$(LIBDIR)"/libyarntaupe.a "$(DESTDIR)$(LIBDIR)"/libyarntaupe.so "$(DESTDIR)$(LIBDIR)"/libyarntaupe.so.0*
	rm -f "$(DESTDIR)$(INCLUDEDIR)/yarntaupe.h" "$(DESTDIR)$(PKGCONFIGDIR)/yarntaupe.pc"
	rm -f "$(DESTDIR)$(PYTHONDIR)/yarntaupe.py" "$(DESTDIR)$(PYTHONDIR)"/__pycache__/yarntaupe.*.pyc
	rmdir "$(DESTDIR)$(PYTHONDIR)/__pycache__" 2>/dev/null || true
	rm -f "$(DESTDIR)$(BINDIR)/dap-gdb" "$(DESTDIR)$(BINDIR)/dap-record" "$(DESTDIR)$(BINDIR)/dap-transcripts"
	for name in dap-gdb README.md $(notdir $(GDB)); do \
	    rm -f "$(DESTDIR)$(SHAREDIR)/gdb/$$name" "$(DESTDIR)$(SHAREDIR)"/gdb/__pycache__/"$${name%.py}".*.pyc; \
	done
	for name in dap-record dap-transcripts $(notdir $(TOOLS)); do \
	    rm -f "$(DESTDIR)$(SHAREDIR)/tools/$$name" "$(DESTDIR)$(SHAREDIR)"/tools/__pycache__/"$${name%.py}".*.pyc; \
	done
	for folder in /gdb/__pycache__ /gdb /tools/__pycache__ /tools ""; do \
	    rmdir "$(DESTDIR)$(SHAREDIR)$$folder" 2>/dev/null || true; \
	done
	case "$(DESTDIR)$(LIBDIR)" in /usr/*) ldconfig 2>/dev/null || true ;; esac

deb:
	scripts/package
