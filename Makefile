# unify: one numbering for the accounts of many hosts.
#   make demo              merges the two hosts of examples/office with the program compiled with run-time checks and not proved,
#                          and shows what was written: two to three minutes
#   make try ARGS='merge OUT HOST..'   any other command, in the same way
#   make program           proves the program and links it, which takes a while; make demo-proved runs the demo with it
#   make demo-apply        as root, after make program: makes trees of two hosts in build/trees, which only root can remove then,
#                          merges, carries the plans out, verifies and takes them back
#   make install PREFIX=.. puts the proved program into PREFIX/bin, the documents and keep files into PREFIX/share/doc/unify
#   make quick             for daily work: formats and proves the crates that changed, and runs the worked examples unproved
#   make test              the gate: looks at the documents' names, proves every crate, tries the must-fail edits, runs the tests
#                          and the program, tries all wrong bodies beside that, and ends with make compare
#   make compare           compares what the program that was built last makes of examples/office, examples/mixed and
#                          examples/worked, what it answers to other arguments and what it leaves in OUT, with what is committed
#   make wrong-bodies      tries the wrong bodies once more; CRATE='idtext ..' those of some crates
#   make refused           refuses one growth of memory after another, to the program, with bundles and with arguments, and to
#                          the readers' tests
#   make clean             removes what was built

PREFIX ?= /usr/local
DOCUMENTS = $(PREFIX)/share/doc/unify
PROGRAM = crates/unify_cli/out/unify_cli
OFFICE = amber=examples/office/amber basalt=examples/office/basalt
BUNDLES = count/swap-counted check/swap-checked merge/two-hosts-swap merge/keep-unowned merge-hosts/swap-with-hosts rehearse/swap-rehearsed
DEMO = build/office
TOLD = build/told
MIXED = build/mixed
STORED = examples/stored-count
HOSTS = a=$(STORED)/a b=$(STORED)/b
TABLES = $(STORED)/b/passwd $(STORED)/b/group
REFUSED = build/refused

# How many proofs go side by side. With 18 GB of free memory rt chooses. With less it would let a large proof wait for memory that
# none needs: then one for each 3 GB, and no more than there are processors.
LANES ?= $(shell awk -v most=$$(nproc) '/^MemAvailable/ { fit = int($$2 / 3000000); \
	if ($$2 < 18000000) print fit < 1 ? 1 : fit < most ? fit : most }' /proc/meminfo)
# What make quick calls changed: whatever differs from this commit.
SINCE ?= HEAD

.PHONY: demo try demo-proved demo-apply test compare wrong-bodies quick refused program install clean

demo:
	@gate/unproved.py demo

try:
	@gate/unproved.py words $(ARGS)

demo-proved: program
	@rm -rf $(DEMO) && mkdir -p $(DEMO)
	@./$(PROGRAM) merge $(DEMO) $(OFFICE)
	@for file in passwd group map certificate report plan.amber plan.basalt \
		passwd.amber group.amber passwd.basalt group.basalt; do \
		echo; echo "$(DEMO)/$$file:"; cat $(DEMO)/$$file; done

demo-apply:
	@test -x $(PROGRAM) || { echo 'make program comes first, not as root' >&2; exit 1; }
	@examples/trees/demo.py $(PROGRAM) build/trees

test:
	@gate/documents.py
	@gate/test_wrong_bodies.py & RT_JOBS=$(LANES) gate/wrong_bodies.py --beside-ci && wait $$!
	@$(MAKE) --no-print-directory compare

wrong-bodies:
	@RT_JOBS=$(LANES) gate/wrong_bodies.py $(CRATE)

quick:
	@set -e; changed=$$({ git diff --name-only $(SINCE) -- crates; git ls-files -o --exclude-standard crates; } | cut -d/ -f2); \
		for crate in $$(sed -n 's/^\([a-z_]*\):.*/\1/p' crates.txt); do \
			case " $$(echo $$changed) " in *" $$crate "*) (cd crates/$$crate && rt fmt && rt check);; esac; done
	@gate/unproved.py bundles

# What the program that was built last makes of examples/office is what is committed there: the merge, its certificate
# accepted with the same sum, the map counted, and each plan rehearsed. Then the hosts of examples/mixed with a keep text and
# without, each bundle of examples/worked, the command line, and what a merge does to the directory that it writes into. Last, for
# root, plans are carried out on real trees and taken back. What the program tells goes to a file, since a shell keeps no exit
# status of a program before a pipe.
compare:
	@rm -rf $(DEMO) && mkdir -p $(DEMO)
	@./$(PROGRAM) merge $(DEMO) $(OFFICE) >$(TOLD) && diff $(TOLD) examples/office/expected-merge
	@diff -r $(DEMO) examples/office/merged
	@./$(PROGRAM) count $(DEMO)/map $(OFFICE) >$(TOLD) && diff $(TOLD) examples/office/expected-merge
	@./$(PROGRAM) check $(DEMO)/certificate $(OFFICE) >$(TOLD) && diff $(TOLD) examples/office/expected-check
	@./$(PROGRAM) count examples/office/map $(OFFICE) >$(TOLD) && diff $(TOLD) examples/office/expected-count
	@set -e; for host in amber basalt; do \
		./$(PROGRAM) rehearse $(DEMO)/plan.$$host examples/office/$$host/mtree; done >$(TOLD); \
		diff $(TOLD) examples/office/expected-rehearse
	@echo 'examples/office: as committed'
	@rm -rf $(MIXED) && mkdir -p $(MIXED)
	@set -e; for other in rocky freebsd; do \
		./$(PROGRAM) merge -q --keep examples/keep/system $(MIXED) examples/mixed/debian examples/mixed/$$other >$(TOLD); \
		diff $(TOLD) examples/mixed/expected-$$other; \
		for file in map report; do diff $(MIXED)/$$file examples/mixed/merged-$$other/$$file; done; done
	@./$(PROGRAM) merge -q $(MIXED) examples/mixed/debian examples/mixed/rocky 2>$(TOLD); \
		test $$? -eq 1 && diff $(TOLD) examples/mixed/expected-refusal
	@echo 'examples/mixed: as committed'
	@examples/worked/compare.py $(PROGRAM)
	@examples/worked/outputs.py $(PROGRAM)
	@if touch build/owned && chown 1:1 build/owned 2>/dev/null; then \
		examples/trees/demo.py $(PROGRAM) build/trees >$(TOLD) || { cat $(TOLD); exit 1; }; \
		echo 'examples/trees: carried out, verified and taken back'; \
	else echo 'examples/trees: skipped, for only root may give files other owners'; fi

# Proves the program and the crates below it, and links it. What has not changed since is not proved again.
program:
	@echo 'proving and linking unify; the first time this takes a while' >&2
	@mkdir -p build
	@cd crates/unify_cli && rt run -- --version > ../../build/log 2>&1 || { cat ../../build/log >&2; exit 1; }

# What the tests are granted is seen by `bench/refused.py tests FIRST LAST`; each growth takes a build of each crate with tests.
refused: program
	@bench/refused.py program $(BUNDLES:%=examples/worked/%.bundle)
	@rm -rf $(REFUSED) && mkdir -p $(REFUSED)
	@bench/refused.py words count $(STORED)/map $(HOSTS)
	@bench/refused.py words merge $(REFUSED) $(HOSTS)
	@bench/refused.py words check $(REFUSED)/certificate $(HOSTS)
	@bench/refused.py words rehearse $(REFUSED)/plan.b $(STORED)/b/mtree
	@bench/refused.py words verify --was $(TABLES) --now $(TABLES) $(STORED)/b/mtree $(STORED)/b
	@bench/refused.py words --help
	@bench/refused.py tests 1 4 layer_tests::tests::readers

install: program
	install -d $(DESTDIR)$(PREFIX)/bin $(addprefix $(DESTDIR)$(DOCUMENTS)/,docs examples/keep)
	install -m 755 $(PROGRAM) $(DESTDIR)$(PREFIX)/bin/unify
	install -m 644 README.md $(DESTDIR)$(DOCUMENTS)
	install -m 644 docs/*.md $(DESTDIR)$(DOCUMENTS)/docs
	install -m 644 examples/keep/* $(DESTDIR)$(DOCUMENTS)/examples/keep

clean:
	rm -rf crates/*/out build bench/work
