.PHONY: run plan drive example programs slotjob slotplan slotdrive test host

# Proves and builds slotjob, then runs it on the bench of 12 nodes in its folder.
run: program = slotjob
run: slotjob example

# The same for slotplan.
plan: program = slotplan
plan: slotplan example

# And for slotdrive.
drive: program = slotdrive
drive: slotdrive example

example:
	@echo "$(program) < crates/$(program)/stdin"
	@target/bin/$(program) < crates/$(program)/stdin

# Proves and builds the three programs.
programs: slotjob slotplan slotdrive

slotjob slotplan slotdrive:
	@mkdir -p target/bin
	@(cd crates/$@ && rt run < /dev/null) > target/$@.log 2>&1 || { cat target/$@.log; exit 1; }
	@cp crates/$@/out/$@ target/bin/$@

# Proves the host's checker, links it into a C program, and compares what it answers.
host:
	@mkdir -p target/staticlib
	@(cd crates/host_c && rt lib) > target/host.log 2>&1 || { cat target/host.log; exit 1; }
	@cp crates/host_c/out/libhost_c.a target/staticlib/libhost.a
	@$(CC) -std=c99 -O2 -Wall -Wextra -o target/agree host/agree.c target/staticlib/libhost.a
	@target/agree

# The gate: all proofs, the must-fail edits, the programs, the tests, and the C program.
test:
	@bash .ci/run
