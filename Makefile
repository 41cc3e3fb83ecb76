# make run    prove and build the board program, and run it on 01's feed; `make run FEED=path` on another. The listing alone goes to
#             standard output
# make test   prove every crate, try the must-fail edits, compare with the second reader; last line `N passed, M failed`
# make lib    prove the library; target/lib has libseatboard.a and seatboard.h, for C and for the Rust package in bindings/rust
# make bench  measure the library beside the second reader and FFmpeg, in one run
# make check  prove what changed since the last time: the quick loop, and no verdict
# make clean  remove what the others made
.PHONY: run test lib bench check clean

FEED ?= examples/listing.feed

run:
	@(cd crates/board && exec rt run) <"$(FEED)"

test:
	@tests/run

# By default rt builds for processors with SSE4.2, and seatboard.h says x86-64
lib:
	@cd crates/seatboard && rt lib --cpu x86-64 >&2
	@mkdir -p target/lib
	@cp crates/seatboard/out/libseatboard.a bindings/c/seatboard.h target/lib/
	@echo target/lib/libseatboard.a target/lib/seatboard.h

bench: lib
	@bench/run

check:
	@rt all check

clean:
	rm -rf target crates/*/out
