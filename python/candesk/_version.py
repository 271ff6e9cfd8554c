"""The version of this package, whose major number is that of the programs it works with."""

VERSION = "1.1.0"
