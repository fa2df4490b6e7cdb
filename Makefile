.PHONY: run programs built docs install uninstall clean package test check check-all operate edits

PREFIX ?= /usr/local
# The programs; first those that take longest to build.
NAMES = zoneserve zonesocket zonecheck zonefaults dnsmsg
PROGRAMS = $(foreach name,$(NAMES),crates/$(name)/out/$(name))
# What the programs are made from.
SOURCES = $(shell find crates \( -name out -o -name must-fail -o -name edits -o -name tests \) -prune -o \( -name '*.rt' -o -name '*.antt' \) -print)
# The scripts that are installed as programs, and the modules of the Python scripts with what they read.
SCRIPTS = $(wildcard bin/*)
MODULES = $(wildcard share/mitrehyssop/*.py share/mitrehyssop/*.toml) docs/CODES.md VERSION
PAGES = $(wildcard man/*.1)
DOC = $(DESTDIR)$(PREFIX)/share/doc/mitrehyssop
SHARE = $(DESTDIR)$(PREFIX)/share/mitrehyssop
LIBEXEC = $(DESTDIR)$(PREFIX)/libexec/mitrehyssop
UNITS = $(DESTDIR)$(PREFIX)/lib/systemd/system
# The documents for operators and auditors. The other documents are for people who work on the source.
DOCUMENTS = $(foreach name,OPERATE SCALE CODES IMPORT ZONEFILE PROVED PERFORMANCE,docs/$(name).md)
COMPLETIONS = $(DESTDIR)$(PREFIX)/share/bash-completion/completions
PYTEST = /usr/bin/python3 -m pytest -q

# Proves and builds the programs, and shows a zone that passes, the faults of a faulty one, and a question with its reply.
QUERY = 12340000000100000000000003777777076578616d706c6503636f6d0000010001
run: export PATH := $(CURDIR)/crates/zonecheck/out:$(CURDIR)/crates/zoneserve/out:$(CURDIR)/crates/dnsmsg/out:$(CURDIR)/bin:$(PATH)
run: built
	@echo
	cd examples && zonecheck example.com company.zone
	@echo
	cd examples && zonelint example faulty.zone || true
	@echo
	cd examples && echo $(QUERY) | zoneserve once example.com company.zone | dnsmsg
	@echo
	@echo 'Next: make install, and docs/OPERATE.md to serve a zone, or bin/zonelint on your own zones (docs/CODES.md).'

# Proves and builds the programs if one is missing or older than a source.
built: $(PROGRAMS)

$(PROGRAMS) &: $(SOURCES)
	packaging/build $(NAMES)

programs:
	packaging/build $(NAMES)

# Makes out/DEFINITIONS.md: the definitions that all contracts use, a section for each file in the order of Lib.antt. A file's
# first comment is the section's text; the definitions follow the first empty line.
docs: out/DEFINITIONS.md

SPECS = crates/dns_spec/specs
out/DEFINITIONS.md: $(wildcard $(SPECS)/*.antt)
	mkdir -p out
	echo '# Definitions' >$@
	for name in $$(sed -n 's/^pub mod //p' $(SPECS)/Lib.antt); do \
	    printf '\n## %s\n\n' "$$name"; \
	    sed -n '/^--/!q; s/^-- *//p' "$(SPECS)/$$name.antt"; \
	    printf '\n```\n'; \
	    sed '1,/^$$/d' "$(SPECS)/$$name.antt"; \
	    printf '```\n'; \
	done >>$@

# Installs everything under PREFIX, or under DESTDIR followed by PREFIX. The examples and the settings in
# contrib/ are in share/mitrehyssop, and the folder of the documents only links to them: small systems may remove that folder.
install: built docs
	install -d "$(DESTDIR)$(PREFIX)/bin" "$(DESTDIR)$(PREFIX)/share/man/man1" "$(DOC)/docs/plots" "$(SHARE)/examples" "$(SHARE)/contrib" "$(COMPLETIONS)"
	install -d "$(LIBEXEC)" "$(UNITS)"
	install -m 755 $(PROGRAMS) $(SCRIPTS) "$(DESTDIR)$(PREFIX)/bin"
	install -m 644 $(MODULES) "$(SHARE)"
	install -m 644 $(PAGES) "$(DESTDIR)$(PREFIX)/share/man/man1"
	install -m 644 README.md CHANGELOG.md SECURITY.md VERSION LICENSE-MIT LICENSE-APACHE "$(DOC)"
	install -m 644 $(DOCUMENTS) out/DEFINITIONS.md "$(DOC)/docs"
	install -m 644 docs/plots/*.svg "$(DOC)/docs/plots"
	install -m 755 libexec/* "$(LIBEXEC)"
	cp examples/* "$(SHARE)/examples"
	cp contrib/* "$(SHARE)/contrib"
	sed -i 's|/usr/share/|$(PREFIX)/share/|g' "$(DESTDIR)$(PREFIX)"/share/man/man1/zone*.1 "$(DOC)"/README.md "$(DOC)"/docs/*.md "$(SHARE)"/contrib/*
	ln -sfn ../../mitrehyssop/examples "$(DOC)/examples"
	ln -sfn ../../mitrehyssop/contrib "$(DOC)/contrib"
	for unit in systemd/*; do sed 's|@PREFIX@|$(PREFIX)|' "$$unit" >"$(UNITS)/$${unit##*/}"; done
	for name in $(NAMES) $(notdir $(SCRIPTS)); do install -m 644 packaging/completion "$(COMPLETIONS)/$$name"; done

uninstall:
	rm -f $(foreach name,$(NAMES) $(notdir $(SCRIPTS)),"$(DESTDIR)$(PREFIX)/bin/$(name)" "$(COMPLETIONS)/$(name)")
	rm -f $(foreach page,$(PAGES),"$(DESTDIR)$(PREFIX)/share/man/man1/$(notdir $(page))")
	rm -f $(foreach unit,$(wildcard systemd/*),"$(UNITS)/$(notdir $(unit))")
	rm -rf "$(DOC)" "$(SHARE)" "$(LIBEXEC)"

# Removes what was built and proved in this checkout. Results that rt keeps elsewhere on the machine remain.
clean:
	rm -rf crates/*/out out

# Makes out/mitrehyssop_VERSION_ARCH.deb from what is built.
package: built
	packaging/package

# The gate: all proofs, wrong edits that must be refused, tests, programs.
test:
	rt ci

# The tests that need nothing but the built programs, and take some minutes.
check: built
	$(PYTEST) -m 'not slow' tests

# All tests but `edits`. Those that need root, or a program that is not installed, are skipped with the reason.
check-all: built
	$(PYTEST) -rs --deselect tests/test_misuse.py::test_edits tests

# Makes the package, checks it with lintian, and runs the commands of docs/OPERATE.md and docs/SCALE.md in a container with systemd.
operate: built
	tests/try-operate "$$(packaging/package)"

# Tries the wrong edits that the gate leaves out: the check has to refuse each. Those of a crate: make edits CRATE=NAME
edits:
	$(PYTEST) -k 'edits and $(or $(CRATE),test)' tests/test_misuse.py
