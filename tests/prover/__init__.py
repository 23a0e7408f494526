"""Wrong bodies, which the prover has to refuse, and wrong definitions, which a test has to catch."""
