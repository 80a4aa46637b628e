"""What the tools round `aurora` share: network files, runs, charts. Python's standard library alone."""
