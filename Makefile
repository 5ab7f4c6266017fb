# What a target wants of Debian it installs first, where it may (tests/gate/packages.txt; FARM_INSTALL=no leaves that out).
.PHONY: help run bin check test wrong coverage deb bench clean

help:            ## these lines
	@sed -n 's/^\([a-z]*\): *## /make \1	/p' Makefile | expand -t 16

run:             ## a day of a lab with the desk and its tools, in a build without proofs; three minutes
	@sh tests/gate/day.sh

bin:             ## proves and builds the program, bin/farm; half an hour
	@sh tests/gate/install.sh bin || :
	@python3 tests/gate/build.py

check:           ## between edits: transcripts, tests and lint, over builds without proofs; ten minutes
	@sh tests/gate/check.sh

test:            ## every proof, named wrong body, test and program from nothing, then the tests of tests/
	@sh tests/gate/all.sh

wrong:           ## the further wrong bodies of wrong/, over what make test or make bin proved
	@python3 tests/gate/waves_test.py
	@python3 tests/gate/waves.py

coverage:        ## which lines and branches of the tools and the Python package the tests reach
	@sh tests/gate/install.sh coverage || :
	@sh tests/gate/coverage.sh bin/farm crates/farm_play/out/farm_play

deb:             ## Debian packages of bin/farm and the tools, in bin/
	@sh tests/gate/install.sh deb || :
	@sh packaging/build.sh bin/farm bin

bench:           ## bin/farm beside its peers, in instructions and memory; bench/all.sh N takes times too
	@sh tests/gate/install.sh bench || :
	@sh bench/all.sh bin/farm

clean:           ## what the other targets left: proofs, programs, packages
	@rm -rf bin crates/*/out
