# `make try` relays one real line without waiting for any proof; `make demo` shows a message on its way; `make test` is the merge gate
# (`.ci/run`: what pages say, then `rt ci`; from nothing about two hours); `make programs` proves and builds the three programs; `make install PREFIX=..` puts them where they run without the
# toolchain, with their manual pages, the unit file and an example of accounts; `make uninstall PREFIX=..` takes all of that away.
.PHONY: try demo test programs install uninstall

PREFIX = /usr/local
DESTDIR =
PROGRAMS = smscd handset smsim
# Where a proved program lies once `rt run` has built it; PROGRAM_smscd=.. and the like name other files.
PROGRAM_smscd = crates/smscd/out/smscd
PROGRAM_handset = crates/handset/out/handset
PROGRAM_smsim = crates/smsim/out/smsim
TO = $(DESTDIR)$(PREFIX)

try:
	@echo 'Builds smsim as it is written and relays crates/smsim/stdin: about two minutes, nothing is proved.'
	@cd crates/smsim && ../../demo/waiting rt try -- relay --centre 447700900000 --from 447700900123 --now 1709251198 < stdin

demo:
	demo/run

test:
	@echo 'Looks at the pages, then proves, tests and builds every crate: about two hours from nothing, less where rt ci passed some before.'
	@echo 'The scripts that try the programs from outside are not among it: tests/README.md lists them.'
	@.ci/run

# `rt run` proves, builds and runs; each prints what it was proved with.
programs:
	cd crates/smscd && rt run -- --version
	cd crates/handset && rt run -- --version
	cd crates/smsim && rt run -- --version

install:
	@for file in $(PROGRAM_smscd) $(PROGRAM_handset) $(PROGRAM_smsim); do \
	    [ -x $$file ] || { echo "$$file is not there: 'make programs' proves and builds it"; exit 1; }; done
	install -D -m 755 $(PROGRAM_smscd) $(TO)/bin/smscd
	install -D -m 755 $(PROGRAM_handset) $(TO)/bin/handset
	install -D -m 755 $(PROGRAM_smsim) $(TO)/bin/smsim
	install -D -m 644 install/man/smscd.8 $(TO)/share/man/man8/smscd.8
	install -D -m 644 install/man/handset.1 $(TO)/share/man/man1/handset.1
	install -D -m 644 install/man/smsim.1 $(TO)/share/man/man1/smsim.1
	install -D -m 644 install/accounts $(TO)/share/doc/smsc/examples/accounts
	install -d $(TO)/lib/systemd/system
	sed 's|@PREFIX@|$(PREFIX)|' docs/smscd.service > $(TO)/lib/systemd/system/smscd.service
	chmod 644 $(TO)/lib/systemd/system/smscd.service

# Accounts, stores and what an administrator has written stay.
uninstall:
	rm -f $(TO)/bin/smscd $(TO)/bin/handset $(TO)/bin/smsim
	rm -f $(TO)/share/man/man8/smscd.8 $(TO)/share/man/man1/handset.1 $(TO)/share/man/man1/smsim.1
	rm -f $(TO)/share/doc/smsc/examples/accounts $(TO)/lib/systemd/system/smscd.service
	-rmdir $(TO)/share/doc/smsc/examples $(TO)/share/doc/smsc 2>/dev/null
