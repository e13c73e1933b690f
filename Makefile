# make run       prove and build jobcheck, and list the example job
# make programs  prove and build jobcheck and jobpack
# make test      the whole gate: every proof, every must-fail edit, the programs and the tests
.PHONY: run programs test

run:
	@mkdir -p target
	@echo 'proving and building jobcheck (some minutes the first time)'
	@cd crates/jobcheck && rt run -- $(CURDIR)/examples/dome.job 2> $(CURDIR)/target/run.log || { cat $(CURDIR)/target/run.log; exit 1; }

programs:
	cd crates/jobcheck && rt run -- --help
	cd crates/jobpack && rt run -- --help

test:
	.ci/run
