"""Limits of the sheets that the pass reads, and of those that it writes."""
from dataclasses import dataclass

NO_LIMIT = 1 << 32


@dataclass(frozen=True)
class Limits:
    """The greatest sizes and counts."""
    names: int = 1024
    letters: int = 16384
    tokens: int = 4096
    types: int = 32
    nodes: int = 16
    equations: int = 64
    declared: int = 128
    lefts: int = 8
    items: int = 64
    length: int = 256
    nested: int = 8
    depth: int = 32
    starts: int = 1


# A sheet that is read.
INPUT = Limits()

# A rewritten sheet: 8,192 tokens, the same names and letters, nothing else.
OUTPUT = Limits(tokens=8192, types=NO_LIMIT, nodes=NO_LIMIT, equations=NO_LIMIT, declared=NO_LIMIT, lefts=NO_LIMIT,
                items=NO_LIMIT, length=NO_LIMIT, nested=NO_LIMIT, depth=NO_LIMIT)
