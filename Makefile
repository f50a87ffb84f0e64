# `make run` lets the desk answer the examples; `make test` runs the whole gate. Both need the toolchain's command `rt` alone.
# `make bench` measures how long a table takes, beside the same loops in plain Rust, and needs `rustc` too.
.PHONY: run test bench

run:
	@mkdir -p target
	@echo 'Proving and building desk: a minute or two the first time.' >&2
	@cd crates/desk && rt run </dev/null >../../target/run.log 2>&1 || { cat ../../target/run.log; exit 1; }
	@crates/desk/out/desk examples/feedback.txt
	@crates/desk/out/desk examples/rows.txt

test:
	@.ci/run

bench:
	@crates/bench/compare
