"""The version of this package, and of the packages that packaging/build makes of the program. It stands here alone."""

VERSION = "0.1.0"
