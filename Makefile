# make              proves and builds the program, and builds canbusd-run if there is a gcc
# make run          builds canbusd-run only (canrun/)
# make library      proves and builds libcanbusd: libcanbusd/out/
# make check        runs everything that needs no kit: tests of the program, of canbusd-run and of the Python package, examples,
#                   types, formatting and linters. Slow tests are left out. Skipped tests are listed with the reason.
#                   PART=bench runs one part; `scripts/outside --list` prints the parts
# make test         runs the test command: all of `make check`, and every proof, edit and test of Rattle. PART=unproved runs
#                   the tests for work in progress on Rattle code. scripts/test lists the parts; `scripts/setup` installs the
#                   packages that they need
# make dist         puts the proved program into dist/, with a file that names the sources it was built from
# make dist-run     puts canbusd-run into dist/, with such a file
# make dist-library puts the proved libcanbusd into dist/, with such a file
# make verify-dist  proves and builds the program again from scratch, and compares it with dist/ byte for byte
# make install      installs the program with its launcher, the Python package, tools, manual page, completions, systemd unit,
#                   documents and examples under PREFIX (after DESTDIR). The package goes to PYTHONDIR, by default the folder
#                   below PREFIX in which python3 looks for packages
# make uninstall    removes the installed files
# make deb          builds a Debian package of the files that make install installs
# make wheel        builds a wheel for pip: the Python package with the programs that make install installs
# make clean        removes the files that were built here

PREFIX ?= /usr/local
# Some shells do not expand the ~ in PREFIX=~/inst.
ifneq ($(filter ~/%,$(PREFIX)),)
override PREFIX := $(patsubst ~/%,$(HOME)/%,$(PREFIX))
endif
DESTDIR ?=
BINDIR = $(DESTDIR)$(PREFIX)/bin
LIBEXECDIR = $(DESTDIR)$(PREFIX)/libexec/canbusd
MANDIR = $(DESTDIR)$(PREFIX)/share/man/man1
COMPLETIONS = $(DESTDIR)$(PREFIX)/share/bash-completion/completions
ZSH = $(DESTDIR)$(PREFIX)/share/zsh/site-functions
FISH = $(DESTDIR)$(PREFIX)/share/fish/vendor_completions.d
# The folder below PREFIX in which python3 looks for packages.
PYTHONDIR ?= $(shell ./scripts/python-package place "$(PREFIX)")
# Tools that need python3 and the package. Each is a link in bin/.
TOOLS = candump2bench
# The folder in which Wireshark looks for capture programs, if it is below this PREFIX.
EXTCAPDIR = $(DESTDIR)$(PREFIX)/lib/x86_64-linux-gnu/wireshark/extcap

# The compiler of canbusd-run.
CC_OF_RUN = $(if $(filter default,$(origin CC)),gcc,$(CC))

all:
	./scripts/program build
	@$(MAKE) -s run

run:
	@if command -v $(CC_OF_RUN) >/dev/null; then ./scripts/run-program build; \
	else echo "canbusd: there is no $(CC_OF_RUN), so canbusd-run is not built"; fi

test:
	./scripts/test $(if $(PART),"$(PART)")

# Uses Debian's python3 if there is one, because python-can is installed there.
PYTHON ?= $(shell command -v /usr/bin/python3 || command -v python3)

check:
	@$(PYTHON) -c 'import can, pytest' || { echo 'make check: $(PYTHON) has no python-can or no pytest;' \
		'`apt-get install python3-can python3-pytest` for /usr/bin/python3, else PYTHON=.. names another' >&2; exit 1; }
	@PYTHON="$(PYTHON)" ./scripts/outside $(if $(PART),"$(PART)")

dist:
	./scripts/program dist

dist-run:
	./scripts/run-program dist

dist-library:
	./scripts/library dist

verify-dist:
	./scripts/program verify

install:
	program=$$(./scripts/program choose) && \
	install -d "$(BINDIR)" "$(LIBEXECDIR)" "$(MANDIR)" "$(COMPLETIONS)" "$(ZSH)" "$(FISH)" && \
	install -m 755 "$$program" "$(LIBEXECDIR)/canbusd"
	install -m 755 tools/serve "$(LIBEXECDIR)/serve"
	install -m 644 tools/commands "$(LIBEXECDIR)/commands"
	./scripts/python-package install "$(DESTDIR)$(PYTHONDIR)"
	ln -sfn "$$(realpath -m --relative-to="$(PYTHONDIR)/canbusd" "$(PREFIX)/libexec/canbusd")" \
		"$(DESTDIR)$(PYTHONDIR)/canbusd/program"
	package=$$(realpath -m --relative-to="$(PREFIX)/libexec/canbusd" "$(PYTHONDIR)") && \
	sed "s|^package=.*|package=\$$place/\"$$package\"|" tools/canbusd.sh >"$(BINDIR)/canbusd" && chmod 755 "$(BINDIR)/canbusd" && \
	for tool in $(TOOLS); do \
		sed "s|^PACKAGE = .*|PACKAGE = \"$$package\"|" "tools/$$tool" >"$(LIBEXECDIR)/$$tool" && \
		chmod 755 "$(LIBEXECDIR)/$$tool" && \
		ln -sf "../libexec/canbusd/$$tool" "$(BINDIR)/$$tool" && ln -sf canbusd.1 "$(MANDIR)/$$tool.1" || exit; \
	done
	install -m 644 canbusd.1 "$(MANDIR)/canbusd.1"
	install -m 644 tools/completions/canbusd.bash "$(COMPLETIONS)/canbusd"
	install -m 644 tools/completions/canbusd.zsh "$(ZSH)/_canbusd"
	install -m 644 tools/completions/canbusd.fish "$(FISH)/canbusd.fish"
	install -d "$(EXTCAPDIR)" && \
	printf '#!/bin/sh\nexec "%s/bin/canbusd" extcap "$$@"\n' "$(PREFIX)" >"$(EXTCAPDIR)/canbusd" && chmod 755 "$(EXTCAPDIR)/canbusd"
	@[ -n "$(DESTDIR)" ] || ./scripts/python-package note "$(PYTHONDIR)"

uninstall:
	rm -f "$(BINDIR)/canbusd" "$(MANDIR)/canbusd.1" "$(COMPLETIONS)/canbusd" "$(ZSH)/_canbusd" "$(FISH)/canbusd.fish" "$(EXTCAPDIR)/canbusd"
	for tool in $(TOOLS); do rm -f "$(BINDIR)/$$tool" "$(MANDIR)/$$tool.1"; done
	./scripts/python-package remove "$(DESTDIR)$(PYTHONDIR)"
	rm -rf "$(LIBEXECDIR)"
	rmdir "$(DESTDIR)$(PREFIX)/libexec" 2>/dev/null || true

# The other files of the installation: the tools' completions, which are links to canbusd's, the systemd unit, documents
# and examples.
TOOL_COMPLETIONS = $(foreach tool,$(TOOLS),"$(COMPLETIONS)/$(tool)" "$(FISH)/$(tool).fish")
UNITS = $(DESTDIR)$(PREFIX)/lib/systemd/system
DOCDIR = $(DESTDIR)$(PREFIX)/share/doc/canbusd

install: install-extras
install-extras:
	install -d "$(COMPLETIONS)" "$(FISH)" "$(UNITS)" "$(DOCDIR)"
	for tool in $(TOOLS); do \
		ln -sf canbusd "$(COMPLETIONS)/$$tool" && ln -sf canbusd.fish "$(FISH)/$$tool.fish" || exit; \
	done
	sed 's|^ExecStart=/usr/bin/canbusd|ExecStart="$(PREFIX)/bin/canbusd"|' contrib/canbusd.service >"$(UNITS)/canbusd.service"
	chmod 644 "$(UNITS)/canbusd.service"
	for file in README.md LICENSE docs/*.md docs/pictures/* examples/*.* examples/python/*.* examples/recipes/*.* examples/c/*.* examples/car/*.* examples/sweep/*.* examples/virtual_ecu/*; do \
		install -D -m 644 "$$file" "$(DOCDIR)/$$file" || exit; \
	done

uninstall: uninstall-extras
uninstall-extras:
	rm -f $(TOOL_COMPLETIONS) "$(UNITS)/canbusd.service"
	rm -rf "$(DOCDIR)"

# Installs canbusd-run if there is one that fits the sources, or if a gcc can build it. The command finds its libraries
# and the bridge in its own folder.
install: install-run
install-run:
	install -d "$(BINDIR)" "$(LIBEXECDIR)" "$(MANDIR)" "$(COMPLETIONS)" "$(ZSH)" "$(FISH)"
	if files=$$(./scripts/run-program files); then \
		install -m 755 $$files "$(LIBEXECDIR)" && \
		ln -sf ../libexec/canbusd/canbusd-run "$(BINDIR)/canbusd-run" && \
		install -m 644 canbusd-run.1 "$(MANDIR)/canbusd-run.1" && \
		install -m 644 tools/completions/canbusd-run.bash "$(COMPLETIONS)/canbusd-run" && \
		install -m 644 tools/completions/canbusd-run.zsh "$(ZSH)/_canbusd-run" && \
		install -m 644 tools/completions/canbusd-run.fish "$(FISH)/canbusd-run.fish"; \
	fi

uninstall: uninstall-run
uninstall-run:
	rm -f "$(BINDIR)/canbusd-run" "$(MANDIR)/canbusd-run.1" "$(COMPLETIONS)/canbusd-run" "$(ZSH)/_canbusd-run" \
		"$(FISH)/canbusd-run.fish"

# Installs libcanbusd if there is one that fits the sources, built here or in dist/.
LIBDIR ?= $(PREFIX)/lib
install: install-library
install-library:
	if ./scripts/library fitting >/dev/null; then \
		DESTDIR="$(DESTDIR)" ./scripts/library install "$(PREFIX)" "$(LIBDIR)" && install -d "$(LIBEXECDIR)" && \
		for file in "$(DESTDIR)$(LIBDIR)"/libcanbusd.so.*; do \
			place=$$(realpath -m --relative-to="$(PREFIX)/libexec/canbusd" "$(LIBDIR)") && \
			ln -sfn "$$place/$${file##*/}" "$(LIBEXECDIR)/$${file##*/}" || exit; \
		done; \
	fi

uninstall: uninstall-library
uninstall-library:
	rm -f "$(DESTDIR)$(PREFIX)/include/canbusd.h" "$(DESTDIR)$(LIBDIR)/pkgconfig/canbusd.pc" \
		"$(DESTDIR)$(LIBDIR)"/libcanbusd.so "$(DESTDIR)$(LIBDIR)"/libcanbusd.so.* "$(DESTDIR)$(LIBDIR)/libcanbusd.a"
	rm -rf "$(DESTDIR)$(LIBDIR)/cmake/canbusd"

library:
	./scripts/library build

deb:
	./scripts/deb

wheel:
	./scripts/python-package wheel "$(CURDIR)"

clean:
	rm -rf crates/*/out canrun/out libcanbusd/out python/build python/src/canbusd.egg-info

.PHONY: library dist-library install-library uninstall-library
.PHONY: all run test check dist dist-run verify-dist install install-extras install-run uninstall \
	uninstall-extras uninstall-run deb wheel clean
