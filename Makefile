# What can be run here. `make help` lists it.
.PHONY: help story test lib issuer vectors edits bench fuzz

help: ## this list
	@grep -E '^[a-z]+:.*##' Makefile | sed -E 's/:.*## /\t/'

story: ## prove the token, then tell the story of two tabs and one key, call by call
	scripts/program story

test: ## all proofs, the must-fail edits, programs, the tests around the library (the merge gate)
	bash .ci/run

lib: ## prove the token and make target/staticlib/libtoken.a, for C and Rust (include/sks.h)
	scripts/library token

issuer: ## prove the issuer's half; libissuer.a for C, libissuer.so for other languages (target/shared), the Rust crate (include/sks_issuer.h)
	scripts/library issuer
	host/python/shared target/shared
	cd host && cargo build --release --locked --offline --quiet -p issuer

vectors: ## prove SHA-256 and HMAC, then run the examples of FIPS 180-4 and RFC 4231
	cd crates/vectors && rt run

edits: ## try every must-fail edit, with what is proved already
	scripts/edits

bench: lib issuer ## speed, stack and size against plain versions; writes docs/BENCH.md and its picture (LOG=what the gate printed, for seconds of proof)
	sh bench/run $(LOG)

fuzz: lib ## arbitrary bytes in all four buffers, for a minute (host/fuzz/run takes seconds); needs clang
	host/fuzz/run 60
