"""The runner of tests/run: its table of suites, and what runs a suite of each kind."""
