# Skipnadur. 'make demo' shows the product at work, 'make test' is the whole gate.
.PHONY: demo test cuts lib install bench fuzz compare vectors peers fmt clean

PREFIX = /usr/local

# LABEL is the text, TRACE=1 shows every transfer: make demo LABEL=HOXA13 TRACE=1
demo:
	@tools/demo $(if $(TRACE),--trace) $(if $(LABEL),"$(LABEL)")

test:
	@tools/gate

# Power cuts after every step of a full wipe and of days in the museum, each recovered, or after some (HOW=short): make cuts S=7
cuts:
	@tools/cuts $(or $(HOW),full) $(S)

# The archives for C, for x86-64; or for another processor: make lib TARGET=thumbv7em-none-eabi
lib:
	@tools/lib $(TARGET)

# Header, archive and pkg-config file below PREFIX (and DESTDIR, for packages).
install:
	@tools/install "$(PREFIX)" "$(DESTDIR)" $(TARGET)

# The port against the Rust original, in one process.
bench:
	@tools/bench

# Every export on hostile inputs between guard pages: S the seed, T seconds: make fuzz T=600 S=7
fuzz:
	@tools/fuzz $(if $(T),-t $(T)) $(if $(S),-s $(S))

# N cases for the random parts, S the seed, GROUPS a comma list: make compare N=5000000
compare:
	@tools/compare run $(if $(N),--cases $(N)) $(if $(S),--seed $(S)) $(if $(GROUPS),--groups $(GROUPS))

# The fixed list of the Rust's answers, which the gate replays with no Rust at hand.
vectors:
	@tools/compare vectors crates/answers

# The port against programs that others wrote from the same documents: make peers N=100000 S=7
peers:
	@tools/peers $(if $(N),-n $(N)) $(if $(S),-s $(S))

fmt:
	@for crate in crates/*; do (cd "$$crate" && rt fmt) || exit 1; done

clean:
	rm -rf target build crates/*/out
