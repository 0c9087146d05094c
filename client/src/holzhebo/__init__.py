"""The client of a broker of consumer contracts. `holzhebo.api` is its library; `holzhebo.cli` is what is typed."""

VERSION = "1.0.0"
