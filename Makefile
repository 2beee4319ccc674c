# Dohlenwerk. `make test` is the whole gate; `make run` shows the Monday sheet of a sample week.
.PHONY: test run examples lib tool install uninstall bench clean

# Where `make install` puts things; with DESTDIR they stand under that folder until they are packed.
PREFIX ?= /usr/local
DESTDIR ?=
export PREFIX DESTDIR

# Proves every crate, runs the programs and compares the library with the second program.
test:
	@tests/gate

# The Monday sheet of a sample week, by the tool.
run:
	@tests/run_program monday_sheet

# The papers' examples, and a week of running hours with a restart, by the library.
examples:
	@tests/run_program sheet_of_examples hours_demo

# The library for C: target/lib/libdohlenwerk.a and libdohlenwerk.so.
lib:
	@tests/build_library

# The tool: target/tool/hours.
tool:
	@tests/build_tool

# The library, its header and pkg-config file, the tool and its man page, put in place and taken away.
install: lib tool
	@packaging/place put

uninstall:
	@packaging/place remove

# How long the calls take, as a ratio to plain Rust.
bench: lib
	@bench/run

clean:
	rm -rf target
