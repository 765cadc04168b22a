# The goals, which `make help` lists. The work is done by the shell scripts in tools/. README has a table of what each takes.
.POSIX:
.PHONY: help first quick build install test prove

# Where `make install` puts the program.
PREFIX = /usr/local

# Which program that is: `make install PROGRAM=build/quick/aeron_policyd` puts the one there of which nothing is proved.
PROGRAM = build/aeron_policyd

help:
	@echo 'make first     builds a part of the program with no proof, and shows it at work on its first script'
	@echo 'make quick     builds the program with no proof, and leaves it as build/quick/aeron_policyd'
	@echo 'make test      runs all cases and examples, and the crates of tests: with no proof, or on what make prove proved'
	@echo 'make build     proves the program and what it stands on, and leaves it as build/aeron_policyd'
	@echo 'make install   puts that program to PREFIX/bin (/usr/local/bin), with its manual page, completions and unit'
	@echo 'make prove     the merge gate: proves everything, and tries all wrong bodies; make test then runs on the proved program'
	@echo 'make help      says this'

first:
	@sh tools/first

quick:
	@sh tools/quick

build:
	@sh tools/build

build/aeron_policyd:
	@sh tools/build

build/quick/aeron_policyd:
	@sh tools/quick

# Nothing is built here but what PROGRAM names; the unit is not started.
install: $(PROGRAM)
	@sh tools/install '$(PROGRAM)' '$(DESTDIR)' '$(PREFIX)'

test:
	@sh tools/test

prove:
	@sh tools/prove
