# make test: every test. make demo: the main job. make simulator: a display on a pseudo-terminal, target/bin/simulator.
# make fuzz SECONDS=n: the comparison with new seeds. make bench: speed.
# For another processor (docs/BOARDS.md): make archive, make test-target and make bench with TARGET=.., and OPT=-Os for a small one.
.PHONY: test demo simulator fuzz bench listing archive test-target

SECONDS ?= 60
OPT ?= -O3

test:
	@tools/run-tests

demo: listing simulator
	@demo/sample-page | target/bin/listing
	@demo/sample-page | target/bin/simulator --replay - --png target/sample-page.png
	@echo 'The same picture is in target/sample-page.png.'

simulator: archive
	@mkdir -p target/bin && simulator/build target/staticlib target/bin/simulator -O2

fuzz: archive
	@cd tests/compare && DISPLAY_ARCHIVE_DIR=$(CURDIR)/target/staticlib CARGO_TARGET_DIR=$(CURDIR)/target/tests \
	    cargo run --release --offline --bin fuzz -- $(SECONDS)

test-target: archive
	@OPT=$(OPT) boards/check $(TARGET)

bench: archive
ifdef TARGET
	@OPT=$(OPT) boards/bench $(TARGET)
else
	@bench/run target/staticlib
endif

listing:
	@tools/build-listing

archive:
	@OPT=$(OPT) tools/build-archive $(TARGET)
