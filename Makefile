# `make help` lists the targets. Times are for four idle processors.
PREFIX ?= /usr/local
LIBDIR ?= $(PREFIX)/lib
DESTDIR ?=

DOCUMENTS := $(PREFIX)/share/doc/sdtool
BASH_COMPLETION := bash-completion/completions/sdtool
ZSH_COMPLETION := zsh/site-functions/_sdtool
FISH_COMPLETION := fish/vendor_completions.d/sdtool.fish
COMPLETIONS := $(BASH_COMPLETION) $(ZSH_COMPLETION) $(FISH_COMPLETION)
PROGRAM := crates/sdtool/out/sdtool
LIBRARY := out/lib/libsdtool.so
VERSION := $(shell sed -n 's/^Version: //p' packaging/control)
# Programs that link to the library look for it by this name.
SONAME := libsdtool.so.$(shell sed -n 's/^major=//p' packaging/library.sh)
SOURCES := crates.txt $(shell find crates -path '*/out' -prune -o -path '*/must-fail' -prune -o -type f -print)

SYSTEMS := linux-x86_64 linux-aarch64 windows-x86_64 wasm
# What the compiler makes of the crates: objects for Linux, and its own form, LLVM IR, for the other systems.
COMPILED := out/systems/compiled
# The commands that a system takes beside a C compiler for this one.
TOOLS_linux-aarch64 := aarch64-linux-gnu-gcc
TOOLS_windows-x86_64 := x86_64-w64-mingw32-gcc
TOOLS_wasm := wasm-opt
TOOLS_page := esbuild
missing_tools = $(strip $(foreach tool,$(TOOLS_$(1)),$(if $(shell command -v $(tool)),,$(tool))))

# Scripts that call make use this one. A recipe that named it would run even with -n.
export MAKE

need_toolchain = $(if $(shell command -v rt 2>&1),,$(error the Rattle toolchain is missing: there is no command 'rt' on the PATH))

.PHONY: help program library run quick check rows format lint test edits figures bench bench-library install uninstall systems $(SYSTEMS) deb dist page dotnet clean

# The first target, so `make` alone lists the targets.
help:
	@echo 'make run               builds the program, and shows questions with its answers (half an hour, then seconds)'
	@echo 'make program           builds the program alone: crates/sdtool/out/sdtool'
	@echo 'make library           builds the library for C and Python: out/lib/libsdtool.a and out/lib/libsdtool.so'
	@echo 'make quick             tries what needs no proof: lints, Python, JavaScript and the page by what was built once (2 minutes)'
	@echo 'make check CRATE=NAME  proves a crate, reusing the work of earlier checks (seconds to 2 minutes)'
	@echo 'make rows ID=WORD      runs the rows whose names contain WORD on the built program (seconds; ID= for all)'
	@echo 'make test              runs the gate and all tests of the built program (about an hour); ends with N passed, M failed'
	@echo 'make edits             tries every edit that the check must refuse, also those that the gate leaves out (an hour or two);'
	@echo '                       CRATE=NAME tries those of a crate, EDIT=WORD those with WORD in their names (10 to 30 seconds each)'
	@echo 'make format            formats Python, JavaScript, C, Rust and Go (half a minute)'
	@echo 'make lint              says what make format would change, and what linters find (half a minute)'
	@echo 'make figures           rewrites what is written by scripts: the places of aliases in sd_alias, the cells of names and the'
	@echo '                       usual texts in sd_kinds and sd_rights, the completions of three shells, the list of tests, and'
	@echo '                       what is written from windows/ and from the header; then prints the size of each crate (seconds)'
	@echo 'make bench             measures the program against a plain one in Rust, and cat (8 minutes)'
	@echo 'make bench-library     measures calls of the library beside those of Samba, from C and Python (a minute)'
	@echo 'make install           installs the program, its man page, documents and completions below PREFIX ($(PREFIX)),'
	@echo '                       and the library for C, its header, man pages and pkg-config file; libraries go to LIBDIR ($(LIBDIR))'
	@echo 'make uninstall         removes them again'
	@echo 'make systems           builds program and library for other systems too, in out/systems (minutes if both are built); or one:'
	@echo '                       make $(SYSTEMS)'
	@echo 'make page              builds out/sdtool.html, the page that shows permissions, of the module that make wasm builds (seconds)'
	@echo 'make dotnet            builds the assembly out/dotnet/Sdtool.dll and, of what make systems built, its NuGet package and the'
	@echo '                       PowerShell module in out/dist (seconds)'
	@echo 'make deb               builds Debian packages of them in out/ (seconds if program and library are built)'
	@echo 'make dist              builds an archive for each system, Python wheels, a NuGet package, a PowerShell module, and Debian'
	@echo '                       packages for amd64 and arm64 in out/dist, with checksums (a minute if all is built)'
	@echo 'make clean             removes what was built'

program: $(PROGRAM)

# 'rt run' proves, builds and runs the program, which does nothing on an empty input. It leaves the program's file alone
# if nothing changed that 'rt' sees, so touch marks the file as up to date.
$(PROGRAM): $(SOURCES)
	$(need_toolchain)
	@tools/prove.py sdtool run -- convert
	@touch $@

library: $(LIBRARY)

$(LIBRARY): $(SOURCES) packaging/library.sh packaging/library.map packaging/describe.sh
	$(need_toolchain)
	@tools/prove.py sdtool_c lib
	packaging/library.sh
	@touch $@

run: program
	@sh examples/answers.sh $(PROGRAM)

quick:
	tests/run --quick

check:
	$(need_toolchain)
	$(if $(CRATE),,$(error say which crate: make check CRATE=sd_sid))
	cd crates/$(CRATE) && rt check

rows: program
	tests/run run_rows $(if $(ID),--only $(ID))

test:
	$(need_toolchain)
	@tests/all.sh

edits:
	$(need_toolchain)
	tools/edits.py $(if $(EDIT),--edit '$(EDIT)') $(CRATE)

format:
	@tools/lint --write

lint:
	@tools/lint

figures:
	windows/write.py
	tools/languages.py
	tools/alias_places.py
	tools/name_cells.py
	tools/usual_texts.py
	packaging/completions.py
	tools/contents.py
	tools/figures.py

bench: program
	bench/run.py $(PROGRAM)

bench-library: library
	bench/library.py

install: program library
	install -d '$(DESTDIR)$(PREFIX)/bin' '$(DESTDIR)$(PREFIX)/share/man/man1' '$(DESTDIR)$(DOCUMENTS)/docs'
	install -m 755 $(PROGRAM) '$(DESTDIR)$(PREFIX)/bin/sdtool'
	install -m 644 docs/sdtool.1 '$(DESTDIR)$(PREFIX)/share/man/man1/sdtool.1'
	install -m 644 README.md CONTRIBUTING.md LICENSE '$(DESTDIR)$(DOCUMENTS)'
	install -m 644 docs/*.md '$(DESTDIR)$(DOCUMENTS)/docs'
	install -d '$(DESTDIR)$(DOCUMENTS)/docs/pictures'
	install -m 644 docs/pictures/*.png '$(DESTDIR)$(DOCUMENTS)/docs/pictures'
	$(if $(wildcard out/sdtool.html),install -m 644 out/sdtool.html '$(DESTDIR)$(DOCUMENTS)')
	cp -R examples '$(DESTDIR)$(DOCUMENTS)'
	install -d $(foreach folder,$(COMPLETIONS),'$(DESTDIR)$(PREFIX)/share/$(dir $(folder))')
	install -m 644 packaging/completions/sdtool.bash '$(DESTDIR)$(PREFIX)/share/$(BASH_COMPLETION)'
	install -m 644 packaging/completions/_sdtool '$(DESTDIR)$(PREFIX)/share/$(ZSH_COMPLETION)'
	install -m 644 packaging/completions/sdtool.fish '$(DESTDIR)$(PREFIX)/share/$(FISH_COMPLETION)'
	install -d '$(DESTDIR)$(PREFIX)/include' '$(DESTDIR)$(LIBDIR)/pkgconfig' '$(DESTDIR)$(LIBDIR)/cmake/sdtool'
	install -m 644 include/sdtool.h '$(DESTDIR)$(PREFIX)/include/sdtool.h'
	install -d '$(DESTDIR)$(PREFIX)/share/man/man3'
	packaging/man_pages.py '$(DESTDIR)$(PREFIX)/share/man/man3'
	install -m 644 out/lib/libsdtool.a '$(DESTDIR)$(LIBDIR)/libsdtool.a'
	install -m 644 out/lib/$(SONAME) '$(DESTDIR)$(LIBDIR)/libsdtool.so.$(VERSION)'
	ln -sf libsdtool.so.$(VERSION) '$(DESTDIR)$(LIBDIR)/$(SONAME)'
	ln -sf $(SONAME) '$(DESTDIR)$(LIBDIR)/libsdtool.so'
	sed -e 's|@PREFIX@|$(PREFIX)|' -e 's|@LIBDIR@|$(LIBDIR:$(PREFIX)/%=$${prefix}/%)|' -e 's|@VERSION@|$(VERSION)|' \
	    packaging/sdtool.pc.in > '$(DESTDIR)$(LIBDIR)/pkgconfig/sdtool.pc'
	chmod 644 '$(DESTDIR)$(LIBDIR)/pkgconfig/sdtool.pc'
	install -m 644 packaging/sdtool-config.cmake '$(DESTDIR)$(LIBDIR)/cmake/sdtool'
	sed 's|@VERSION@|$(VERSION)|' packaging/sdtool-config-version.cmake.in \
	    > '$(DESTDIR)$(LIBDIR)/cmake/sdtool/sdtool-config-version.cmake'
	chmod 644 '$(DESTDIR)$(LIBDIR)/cmake/sdtool/sdtool-config-version.cmake'

uninstall:
	rm -f '$(DESTDIR)$(PREFIX)/bin/sdtool' '$(DESTDIR)$(PREFIX)/share/man/man1/sdtool.1'
	rm -f '$(DESTDIR)$(PREFIX)/share/man/man3/sdtool.h.3' '$(DESTDIR)$(PREFIX)/share/man/man3'/sdtool_*.3
	rm -f '$(DESTDIR)$(PREFIX)/include/sdtool.h' '$(DESTDIR)$(LIBDIR)/pkgconfig/sdtool.pc'
	rm -f $(foreach file,libsdtool.a libsdtool.so $(SONAME) libsdtool.so.$(VERSION),'$(DESTDIR)$(LIBDIR)/$(file)')
	rm -f $(foreach file,$(COMPLETIONS),'$(DESTDIR)$(PREFIX)/share/$(file)')
	rm -rf '$(DESTDIR)$(DOCUMENTS)' '$(DESTDIR)$(LIBDIR)/cmake/sdtool'

# Each system whose tools are here.
systems: $(foreach system,$(SYSTEMS),$(if $(call missing_tools,$(system)),,$(system)))
	@$(foreach system,$(SYSTEMS),$(if $(call missing_tools,$(system)),\
	    echo '$(system): skipped. There is no command $(call missing_tools,$(system))';)) :

# A system that is built has a file that says so, so nothing is built twice.
$(SYSTEMS): %: out/systems/%/.built

out/systems/linux-x86_64/.built: $(COMPILED)/linux-x86_64/sdtool.o $(LIBRARY)
out/systems/linux-aarch64/.built: $(COMPILED)/linux-aarch64/sdtool.o $(COMPILED)/linux-aarch64/libsdtool_c.a
out/systems/windows-x86_64/.built out/systems/wasm/.built: $(COMPILED)/sdtool.bc $(COMPILED)/libsdtool_c.bc
out/systems/wasm/.built: systems/drop_table.py systems/lower_memory.py $(wildcard javascript/*)
$(SYSTEMS:%=out/systems/%/.built): systems/build.sh systems/heap.ll $(wildcard systems/c/*) include/sdtool.h packaging/library.sh packaging/library.map
	systems/build.sh $(notdir $(@D))
	@touch $@

$(COMPILED)/linux-x86_64/sdtool.o $(COMPILED)/sdtool.bc &: $(PROGRAM) systems/compile.py
	systems/compile.py sdtool $(COMPILED)/linux-x86_64/sdtool.o --ir $(COMPILED)/sdtool.bc

$(COMPILED)/libsdtool_c.bc: $(LIBRARY) systems/compile.py
	systems/compile.py sdtool_c $(COMPILED)/linux-x86_64/libsdtool_c.a --ir $@

$(COMPILED)/linux-aarch64/sdtool.o: $(PROGRAM) systems/compile.py
	systems/compile.py sdtool $@ --target aarch64-unknown-linux-gnu

$(COMPILED)/linux-aarch64/libsdtool_c.a: $(LIBRARY) systems/compile.py
	systems/compile.py sdtool_c $@ --target aarch64-unknown-linux-gnu

# The page has the module inside.
PAGE_MODULE := out/systems/wasm/sdtool.wasm

page: $(filter wasm,$(SYSTEMS))
	$(if $(wildcard $(PAGE_MODULE) $(filter wasm,$(SYSTEMS))),,$(error the page needs $(PAGE_MODULE)))
	web/build.py $(PAGE_MODULE) out/sdtool.html

# The assembly for .NET, and its packages.
dotnet:
	packaging/nuget.py

# Package the tree that install makes.
deb: program library
	packaging/deb.sh

# Each archive has the page where it can be built.
dist: systems $(if $(call missing_tools,wasm)$(call missing_tools,page),,page)
	packaging/dist.sh

clean:
	rm -rf crates/*/out out rust/target python/sdtool/_native.abi3.so
