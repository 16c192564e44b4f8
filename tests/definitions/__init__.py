"""The definitions of the proofs (`crates/NAME/specs/*.antt`) as Python functions, and comparisons of them with the independent model."""
