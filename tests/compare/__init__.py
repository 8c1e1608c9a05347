"""Parts of ../compare-definitions: draw cases, ask the oracle, have the checker compute, make a difference small."""
