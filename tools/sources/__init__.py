"""What is read of the sources of crates: code, definitions, and both of a crate."""
