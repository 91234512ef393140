# `make library` builds target/lib/libbaarqidho.a, which C and Rust link; `make list` the listing program target/bin/list; `make test` proves
# and tests everything.
.PHONY: library list test

library:
	.ci/library

list:
	.ci/program

test:
	.ci/run
