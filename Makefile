# Names of commands, and nothing else.
.PHONY: help run test lib fuzz interop bench fmt

SEED = 1
COUNT = 1000000
CAPTURE =

help:
	@echo "make run      judge a sample capture (CAPTURE=file: that one; CAPTURE=-: standard input)"
	@echo "make test     the gate: prove everything that it has not passed here before, run all tests"
	@echo "make lib      the archive for C: target/staticlib/libhifrostum.a (x86-64 Linux)"
	@echo "make fuzz     fresh cases through both implementations (SEED, COUNT)"
	@echo "make interop  scapy, the kernel and tshark, and the Rust wrapper (root)"
	@echo "make bench    instructions, estimated cycles and times beside C (BEFORE=archive: another library's too)"
	@echo "make fmt      the layout of .rt and .antt files"
	@echo "scripts/run.sh CAPTURE is make run with an exit status: 0 read to its end, 1 damaged, 2 failed"

# a file's name may have blanks, quotes and dollars: it goes by the environment, as it was written
run: export CAPTURE_FILE = $(value CAPTURE)
run:
	@scripts/run.sh "$$CAPTURE_FILE"

test:
	@.ci/run

lib:
	@scripts/lib.sh

fuzz:
	@scripts/fuzz.sh $(SEED) $(COUNT)

interop:
	@tests/interop/run.sh && scripts/rust-test.sh

bench:
	@bench/run.sh

fmt:
	@for crate in crates/*/; do (cd "$$crate" && rt fmt) || exit; done
