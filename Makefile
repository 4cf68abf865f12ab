# The commands of the repository. `make test` is the gate.
.PHONY: run test quick unproved peritext install demo test-demo

PROGRAM = crates/edit_shell/out/edit_shell

# One line for the kit and all sources: two trees have the same one only where these are the same.
SUM = { rt version; cat crates.txt; find crates -name out -prune -o -type f -print0 | LC_ALL=C sort -z | xargs -0 sha256sum; } | sha256sum

# The program's main job over its embedded default, in memory. It proves nothing.
run:
	cd crates/edit_shell && rt try < stdin

# Everything from nothing, but for what an earlier run on this machine passed: each proof, each must-fail edit, each test, the program's stored run. Then the proved program on real files,
# and beside that the clients over it; that for JavaScript only where there is node.
# It is kept as bin/peritext with the line of its sources, unless these changed meanwhile. `rt ci` runs below a clock, which ends with what each crate cost, and with its status; above
# a limit of processor seconds it fails.
test:
	@mkdir -p bin; rm -f bin/sources; $(SUM) > bin/asked
	python3 tools/tables.py --check
	python3 tools/edits.py
	python3 tools/gate_times.py
	@if $(SUM) | cmp -s - bin/asked; then python3 tools/quick.py --passed && cp $(PROGRAM) bin/peritext && mv bin/asked bin/sources; fi
	python3 tools/over_program.py $(PROGRAM)

# What changed since the last `make test` that passed here, and what stands on it: proved and tested, with the edits of what changed alone. The program is then
# bin/peritext, unless the sources changed meanwhile.
quick:
	@mkdir -p bin; rm -f bin/sources; $(SUM) > bin/asked
	python3 tools/quick.py
	@if $(SUM) | cmp -s - bin/asked; then mv bin/quick_program bin/peritext && mv bin/asked bin/sources; fi

# The program without its proofs, as bin/unproved/peritext, in a minute or two: for trying it, and for whoever changes it.
unproved:
	python3 tools/unproved.py

# The proved program, as bin/peritext. It is built anew unless the one that is there was built of these very sources: times of files tell nothing
# of a tree that was copied.
peritext:
	@mkdir -p bin; $(SUM) > bin/asked
	@if test -x bin/peritext && cmp -s bin/asked bin/sources; then \
	    echo "bin/peritext is built of these sources"; \
	else \
	    rm -f bin/sources && (cd crates/edit_shell && rt run < stdin > /dev/null) && \
	    { $(SUM) | cmp -s - bin/asked || { echo "the sources changed meanwhile"; exit 1; }; } && \
	    cp $(PROGRAM) bin/peritext && mv bin/asked bin/sources; \
	fi

# The proved program below PREFIX, with its manual page, and the documents, clients and examples as they stand here, so that each finds the others.
# DESTDIR goes in front, as packages want it.
PREFIX ?= /usr/local
SHARE = $(DESTDIR)$(PREFIX)/share
NOT_INSTALLED = -name tests -o -name build -o -name node_modules -o -name __pycache__ -o -name .mypy_cache -o -name '*.egg-info'

install: peritext
	install -D -m 755 bin/peritext $(DESTDIR)$(PREFIX)/bin/peritext
	mkdir -p $(SHARE)/man/man1
	python3 tools/man_page.py bin/peritext > $(SHARE)/man/man1/peritext.1
	find *.md docs clients examples \( $(NOT_INSTALLED) \) -prune -o -type f -exec install -D -m 644 {} $(SHARE)/doc/peritext/{} \;

# What the demo and its test run: bin/peritext, which is built only where it isn't there, or another program that PERITEXT names. The demo is
# content with the unproved program where that alone is there.
PERITEXT ?= bin/peritext
SHOWN = $(if $(filter bin/peritext,$(PERITEXT)),$(or $(wildcard bin/peritext),$(wildcard bin/unproved/peritext),bin/peritext),$(PERITEXT))
HAS_NODE = node -e 'process.exit(parseInt(process.versions.node) < 20 ? 1 : 0)' 2> /dev/null
HAS_PROGRAM = test "$(1)" != bin/peritext || test -x bin/peritext || $(MAKE) peritext

# Where the demo keeps its two files.
DEMO ?= bin/demo

# A page with two editors, each over a daemon of its own, until Ctrl-C.
demo:
	@$(HAS_NODE) || { echo "The demo can't be shown, for there is no node of version 20 or later: apt-get install nodejs (from Debian 13 on)"; exit 1; }
	@$(call HAS_PROGRAM,$(SHOWN))
	@echo "The demo runs $(SHOWN)$(if $(findstring unproved,$(SHOWN)), (nothing of it is proved))"
	@PERITEXT="$(SHOWN)" node clients/web/src/main.js "$(DEMO)"

# The same in a browser without a window. PICTURES=docs takes the pictures of docs/ anew.
test-demo:
	@if $(HAS_NODE); then $(call HAS_PROGRAM,$(PERITEXT)) && PERITEXT="$(PERITEXT)" PICTURES="$(PICTURES)" node clients/web/tests/run.mjs; \
	else echo "skipped: clients/web, for there is no node of version 20 or later: apt-get install nodejs (from Debian 13 on)"; fi
