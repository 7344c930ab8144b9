# The commands of the repository by name; each is a script that can be called by itself. `make help` lists them.
.PHONY: help bench test bindings differential performance install uninstall wheel
export PREFIX DESTDIR

help: ## this list
	@sed -nE 's/^([a-z]+):.*## (.*)/\1|\2/p' Makefile | while IFS='|' read -r name what; do printf 'make %-14s %s\n' "$$name" "$$what"; done

bench: ## proves and runs the bench, a line for each case (some minutes at first, then seconds)
	@./bench

test: ## the gate, .ci/run: every proof, every wrong edit, every test (an hour at first, then some ten minutes)
	@.ci/run

bindings: ## builds the bindings for Rust and Python and tests them
	@bindings/test

differential: ## compares the library with the Rust, call by call (a minute; CDA_SRC names the Rust's source tree)
	@differential/run short

performance: ## times the library beside the Rust (some minutes)
	@differential/run bench

install: ## puts archive, header and pkg-config file below PREFIX (/usr/local), and that below DESTDIR
	@library/install

uninstall: ## removes what `make install` put below the same PREFIX and DESTDIR
	@library/uninstall

wheel: ## builds the Python package as a wheel, into target/wheel
	@bindings/wheel
