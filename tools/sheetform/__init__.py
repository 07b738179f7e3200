"""A text form of sheets, an evaluator of runs, and drawn time lines. Python's standard library only."""
