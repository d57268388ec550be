"""Runs of the interpreter, each with the report that was derived by hand."""
