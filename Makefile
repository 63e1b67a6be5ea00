# The commands of this repository. They need make, bash, python3, a C compiler as cc, and the toolchain's command rt.

PROGRAM := crates/airbook/out/airbook
PREFIX ?= /usr/local

.PHONY: help demo test documents docs check quick cases mutants install

# What can be asked for, with a line each.
help:
	@echo 'make demo      the main job on a fresh machine, by a build that is not proved'
	@echo 'make test      every proof, every edit that has to be refused, and every test'
	@echo 'make docs      whether the documents go with the sources, and how long their sentences are: seconds'
	@echo 'make check CRATE=NAME   proves one crate, over the libraries below it'
	@echo 'make quick     before a commit: the documents, and the cases on the program that is there'
	@echo 'make cases     the cases alone, on the program that make test has proved'
	@echo 'make mutants   more edits that have to be refused: before a release'
	@echo 'make install   copies the proved program to PREFIX/bin/airbook, its pages to PREFIX/share (PREFIX=/usr/local)'

# The main job on a machine where nothing is built. rt try compiles and runs, and proves nothing.
demo:
	@echo 'This build is not the proved one: it is compiled by rt try, which proves nothing.'
	@echo 'airbook run < examples/two-gateways.txt'
	@cd crates/airbook && rt try -- run < ../../examples/two-gateways.txt

# First what takes seconds: whether the documents go with the sources. Then the gate; the edits that the prover has to refuse,
# after the script that tries them was tried itself; the installation of a program that is none; what must not compile; and then,
# on the program that the gate has proved and built, the cases, settings with every kind of slip, random runs, saved books,
# pictures and journals beside plain models, torn journals and such at fault, allocations that are refused, workers beside one
# thread, inputs of as many bytes and uplinks as there may be, the commands of the pages, talks line by line, the example of a
# converter, a server that listens, one that packet forwarders are pointed at, what programs on its machine ask it for, more uplinks
# than a desk takes, the same server killed and started again, killed and failed at any of its calls beside rough packet forwarders,
# and what is installed. Where one fails, what comes after it is not run.
test: documents
	python3 tests/gate.py
	python3 tests/edit_trials.py
	python3 tests/install_trials.py
	python3 tests/edits.py edits
	python3 tests/misuse.py
	python3 tests/cases.py $(PROGRAM)
	python3 tests/settings.py $(PROGRAM)
	python3 tests/random_runs.py $(PROGRAM)
	python3 tests/random_saved.py $(PROGRAM)
	python3 tests/pictures.py $(PROGRAM)
	python3 tests/recover.py $(PROGRAM)
	python3 tests/journals.py $(PROGRAM)
	python3 tests/refused_growths.py $(PROGRAM)
	python3 tests/refused_books.py $(PROGRAM)
	python3 tests/workers.py $(PROGRAM)
	python3 tests/limits.py $(PROGRAM)
	python3 tests/pages.py $(PROGRAM)
	python3 tests/dialogue.py $(PROGRAM)
	python3 tests/forwarder.py $(PROGRAM)
	python3 tests/listen.py $(PROGRAM)
	python3 tests/serve.py $(PROGRAM)
	python3 tests/control.py $(PROGRAM)
	python3 tests/desks.py $(PROGRAM)
	python3 tests/restarts.py $(PROGRAM)
	python3 tests/soak.py $(PROGRAM)
	python3 tests/installed.py

# Whether links lead somewhere, sentences are short, the lists of definitions, of calls that take memory and of changes of
# statements are those of the sources, all edits can be applied to these, the version is told alike everywhere, and the program of
# docs/BUILDING.md is the crate's.
documents:
	python3 tests/links.py
	python3 tests/english.py
	python3 tests/model.py
	python3 tests/growths.py
	python3 tests/edit_table.py
	python3 tests/edits_apply.py
	python3 tests/version.py
	python3 tests/examples.py

docs: documents

# One crate, over the libraries below it, as make check CRATE=gateway_book.
check:
	@test -d 'crates/$(CRATE)/src' || { echo 'Which crate? For example: make check CRATE=gateway_book' >&2; exit 1; }
	cd 'crates/$(CRATE)' && rt check

# What takes less than a minute before a commit.
quick: documents cases

# The proved program on each of the cases.
cases:
	@test -x $(PROGRAM) || { echo 'There is no proved program at $(PROGRAM): run make test first.' >&2; exit 1; }
	python3 tests/cases.py $(PROGRAM)

# The edits in mutants/, which make test leaves out: before a release. Of those that were refused over the same files, as
# mutants/refused.txt has it, none is tried again.
mutants:
	python3 tests/gate.py
	python3 tests/refused_mutants.py --read
	python3 tests/edits.py mutants

# The proved program as PREFIX/bin/airbook; below PREFIX/share its manual page, completions for bash, formats and examples, and
# what it is made of as airbook/BUILD.
install:
	python3 tests/install.py '$(DESTDIR)$(PREFIX)'
