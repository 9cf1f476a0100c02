"""jasonport makes of a Jason project a project of jasonrun. docs/PORT.md tells what becomes of what, and how to add a rule."""

VERSION = "1.0.0"
