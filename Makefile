# `make run` answers the example day; `make tour` follows a morning event by event; `make test` is the gate.
# `make compare` lets rpiday and the two books of bench/ answer 10,000 days; it needs cargo.
# `make bench` measures the proved book beside those two; it needs cargo and valgrind.
# `make link` builds programs in C and in Rust over the static library of the proved book; it needs cc and cargo.
.PHONY: run tour test compare bench link

run:
	@scripts/run rpiday < examples/day.csv

tour:
	@scripts/run tour < /dev/null

test:
	.ci/run

compare:
	@scripts/run rpiday < examples/day.csv > /dev/null
	cd bench && cargo run --release --bin compare -- 1 10000 ../crates/rpiday/out/rpiday

bench:
	scripts/bench

link:
	scripts/link
