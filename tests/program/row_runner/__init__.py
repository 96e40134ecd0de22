"""Runs the built program on real files, row by row, and compares what comes of it with what has to come."""
