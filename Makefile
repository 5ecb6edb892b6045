# One name for each thing that can be run. `make help` lists them; each calls a script whose first lines say the rest.
# On another program than the built one: make wire PROGRAM=out/fwdesk.unproved
PROGRAM ?= crates/fwdesk/out/fwdesk

.PHONY: help build try check lint unit wire fuzz fault mutants e2e load bench deb release
help:     ## this list
	@sed -n 's/^\([a-z0-9]*\): *## */\1|/p' Makefile | awk -F'|' '{ printf "  make %-9s %s\n", $$1, $$2 }'
build:    ## prove and build the program: an hour from nothing on 4 cores
	tools/build
try:      ## compile a program without proofs, for a look, in four minutes: out/fwdesk
	examples/quickstart --keep out/fwdesk
check:    ## the gate: proofs from nothing, mutants, tests, fault injection
	bash .ci/run
lint:     ## all that takes no proof: pages, layouts, descriptions, configurations, scripts
	tools/lint/all
unit:     ## unit tests of the tools and of the services
	tests/unit/run
	tests/unit/run --services
wire:     ## wire tests: every case, whole, byte by byte and in lock-step, and over TCP
	tests/wire/run --program $(PROGRAM)
	tests/tcp/run --program $(PROGRAM)
fuzz:     ## differential fuzzing against the reference model, for a minute
	tests/differential/fuzz --program $(PROGRAM) --seconds 60
fault:    ## fault injection: memory, reads, writes, syncs; truncated files
	tests/fault/inject --program $(PROGRAM)
	tests/fault/truncate --program $(PROGRAM) file
mutants:  ## the prover rejects each mutant of the gate
	tests/mutation/run
e2e:      ## end to end, on this machine, four at the same time: command line, web UI, proxies, console, hawkBit
	tests/run e2e/cli e2e/web e2e/proxy e2e/console e2e/hawkbit e2e/device_client --program $(PROGRAM) -n 4
load:     ## load: ten thousand devices at the same time, slow clients, wrong passwords
	tests/load/thundering-herd --program $(PROGRAM)
bench:    ## speed and memory beside the same server in C
	bench/run
deb:      ## the Debian package of the built program
	tools/package --program $(PROGRAM)
release:  ## what is released of a commit that passed the gate
	tools/release
