.PHONY: run test

# The main job: the tour, proved, built and run.
run:
	cd crates/tour && rt run

test:
	.ci/run
