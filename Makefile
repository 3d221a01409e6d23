# make test         prove every crate, try the must-fail edits, run the programs and the host tests
# make demo         run the programs that show the library at work
# make lib          build include/librudderfig.a, the archive that a C program links with include/rudderfig.h
# make boards       build target/boards/TRIPLE/librudderfig.a for x86-64, AArch64, ARMv7-A and RISC-V
# make boards-test  try these archives against the model, by qemu-user
# make bench        time and count instructions beside lib/bch.c of the Linux kernel
# make compare      compare parities and decoded words with lib/bch.c of the Linux kernel
# make install      install header, archive, tool and manual page below PREFIX (/usr/local), which DESTDIR goes before
# make generators   compare the stored generators with those that PARI/GP computes
.PHONY: test demo lib install boards boards-test bench compare generators

test:
	@scripts/test

demo:
	@scripts/demo

lib:
	@scripts/lib

boards:
	@scripts/boards

boards-test:
	@scripts/boards-test

bench:
	@scripts/bench

compare:
	@scripts/compare-linux

generators:
	@scripts/compare-generators

install:
	@PREFIX='$(PREFIX)' DESTDIR='$(DESTDIR)' scripts/install
