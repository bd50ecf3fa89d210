# Installs Cimaroly, and makes packages of it. Nothing is built: programs and libraries are those of dist/.
#
#   make install     installs the programs, the C library and its header, manual pages and completions to PREFIX, with
#                    DESTDIR in front: those for this machine, or for MACHINE, x86_64-linux or aarch64-linux
#   make uninstall   removes them
#   make deb         makes Debian packages, one for each machine, in out/packages/
#   make wheel       wheels for Python, one for each machine
#   make crate       a crate for Rust
#   make npm         a package for Node
#   make packages    all four
#   make manual      writes the manual pages and completions of packaging/share/
#   make clean       removes out/
#
# SPDX-License-Identifier: MIT OR Apache-2.0

PREFIX ?= /usr/local
# (a relative folder is one below that which make is called in)
absolute = $(if $(filter-out /%,$(firstword $1)),$(CURDIR)/$1,$1)
override PREFIX := $(call absolute,$(PREFIX))
override DESTDIR := $(call absolute,$(DESTDIR))
MACHINE ?= $(shell uname -m)-linux
BINDIR ?= $(PREFIX)/bin
DATADIR ?= $(PREFIX)/share
ZSHDIR ?= $(DATADIR)/zsh/site-functions
DOCDIR ?= $(DATADIR)/doc/cimaroly
ROOT := $(abspath $(dir $(lastword $(MAKEFILE_LIST))))
OUT := $(ROOT)/out/packages

SHARE := packaging/share
PROGRAMS = cimaroly x509_tool
MANUAL = man/man1/cimaroly.1 man/man1/x509_tool.1 man/man3/cimaroly.3
COMPLETIONS = bash-completion/completions/cimaroly bash-completion/completions/x509_tool \
    fish/vendor_completions.d/cimaroly.fish fish/vendor_completions.d/x509_tool.fish
ZSH = _cimaroly _x509_tool
DOCUMENTS = LICENSE-APACHE LICENSE-MIT NOTICE CHANGELOG.md docs/JSON.md

.PHONY: help install uninstall packages deb wheel crate npm manual clean

help:
	@sed -n '3,13s/^# *//p' $(ROOT)/Makefile

install: $(ROOT)/dist/$(MACHINE)
	$(MAKE) -C $(ROOT)/bindings/c install MACHINE='$(MACHINE)' PREFIX='$(PREFIX)' DESTDIR='$(DESTDIR)'
	install -d '$(DESTDIR)$(BINDIR)' '$(DESTDIR)$(DOCDIR)' '$(DESTDIR)$(ZSHDIR)'
	cd $(ROOT)/dist/$(MACHINE) && install -m 755 $(PROGRAMS) '$(DESTDIR)$(BINDIR)'
	cd $(ROOT) && install -m 644 $(DOCUMENTS) '$(DESTDIR)$(DOCDIR)'
	cd $(ROOT)/$(SHARE) && for it in $(MANUAL) $(COMPLETIONS); do \
	    install -D -m 644 $$it '$(DESTDIR)$(DATADIR)'/$$it || exit 1; done
	cd $(ROOT)/$(SHARE)/zsh/site-functions && install -m 644 $(ZSH) '$(DESTDIR)$(ZSHDIR)'

$(ROOT)/dist/%:
	$(error there is no build for $*: there are builds for x86_64-linux and aarch64-linux, and the page in web/ runs anywhere)

uninstall:
	$(MAKE) -C $(ROOT)/bindings/c uninstall PREFIX='$(PREFIX)' DESTDIR='$(DESTDIR)'
	for it in $(PROGRAMS); do rm -f '$(DESTDIR)$(BINDIR)'/$$it; done
	for it in $(MANUAL) $(COMPLETIONS); do rm -f '$(DESTDIR)$(DATADIR)'/$$it; done
	for it in $(ZSH); do rm -f '$(DESTDIR)$(ZSHDIR)'/$$it; done
	for it in $(notdir $(DOCUMENTS)); do rm -f '$(DESTDIR)$(DOCDIR)'/$$it; done
	-rmdir '$(DESTDIR)$(DOCDIR)'

packages: deb wheel crate npm

deb:
	$(ROOT)/packaging/make_deb.sh $(OUT)

wheel:
	$(ROOT)/packaging/make_wheel.sh $(OUT)

crate:
	$(ROOT)/packaging/make_crate.sh $(OUT)

npm:
	mkdir -p $(OUT)
	cd $(ROOT)/web && npm pack --silent --offline --pack-destination $(OUT)

manual:
	$(ROOT)/packaging/make_manual.py

clean:
	rm -rf $(ROOT)/out
