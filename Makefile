# What is expected at the top, done where it is done: host/Makefile builds and installs, .ci/run tries everything.
#   make            library and programs, into host/build
#   make test       the whole gate: proofs, edits, programs, tests; what was proved here of the same files is kept
#   make install    library, headers, zkv and manual pages, into DESTDIR and PREFIX; make uninstall
#   make clean      removes host/build, the proved archive with it
all archive install uninstall clean:
	$(MAKE) -C host $@

test:
	.ci/run

.PHONY: all archive install uninstall clean test
