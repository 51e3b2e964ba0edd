"""Tries mutants, wrong bodies that the prover has to refuse: `./x mutants` says how, and what it says of them."""
