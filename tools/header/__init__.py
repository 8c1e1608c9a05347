"""Parts of ../numbers and ../check-header: what the sources say, and where it is printed."""
