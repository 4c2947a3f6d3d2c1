# test: the whole gate. run: the judging program on the samples. soak: many more random cases.
# bench: the proved routines against Rust. program: the judging program alone. libraries: what C programs
# link. samples: writes samples/*.bin anew. pins: writes anew what tests/documents keeps of contracts,
# theorems and definitions, after each change has been looked at. crates: writes crates.txt anew.
.PHONY: test run soak bench program libraries samples pins crates clean

test:
	@tools/test.sh

run:
	@mkdir -p target
	@echo "proving the judging program; what rt says goes to target/run.log"
	@tools/test.sh program >target/run.log 2>&1 || { cat target/run.log; exit 1; }
	@for file in samples/*.bin; do \
		echo "$${file##*/}:"; \
		target/bin/judge <"$$file" || exit 1; \
	done

soak:
	@tools/test.sh soak

bench:
	@tools/test.sh bench

program:
	@tools/test.sh program

libraries:
	@tools/test.sh libraries

samples:
	@tools/test.sh samples

pins:
	@tools/test.sh pins

crates:
	@tools/test.sh crates

clean:
	rm -rf target crates/*/out
