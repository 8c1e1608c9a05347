"""Parts of make and readings: the inputs and expected outputs of crates/replay_run and crates/readings_run."""
