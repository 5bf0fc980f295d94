# make run: the main job. make test: the gate. make replay <FILE: the captured chunks of a file, a line for each and the totals.
# These need only the kit's rt on the PATH.
# make lib: the library for C and Rust, target/native/libsctp_receive.a and sctp_receive.h. make host-test: it, called from both (gcc, cargo).
# make checks: the calls of tools/checks/script, each with the answer that it must give.
# make compare: the proved program beside the Rust's own code and a model of documents 01 and 02 (cargo, a C compiler, sctp-proto's files at SCTP_PROTO_SRC).
# make compare-record: crates/replies' recorded calls and answers again. make faults: wrong models are found out.
# make bench: ours and the Rust timed side by side; docs/BENCH.md and docs/bench.svg (cargo, and Debian's librust-bytes-dev and librust-thiserror-dev).
.PHONY: run test replay checks lib host-test compare compare-record faults bench clean

run:
	@program=$$(tools/program receive_image) && "$$program"

test:
	@.ci/run

replay:
	@program=$$(tools/program replay) && "$$program"

checks:
	@tools/checks/run

lib:
	@tools/native-lib

host-test:
	@tools/host-test

compare:
	@tools/compare/run

compare-record:
	@tools/compare/run record

faults:
	@tools/compare/run faults

bench:
	@bench/run

clean:
	rm -rf target crates/*/out
