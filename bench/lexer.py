#!/usr/bin/env python3
"""Times the program on texts that the lexer reads whole, at a quarter, a half and all of a mebibyte.

No text begins a class text, so each run is the lexer's scan and little else. Where the time is linear in
the text, the last column is near 2. Usage, at the top of the repository: python3 bench/lexer.py
"""
import timing

PIECES = {
    "identifiers": b"abc ",
    "one identifier": b"a",
    "integers": b"1_000 ",
    "symbols": b":=//->",
    "strings": b'"a%N" ',
    "escapes of characters": b"'%/65/' ",
    "comments": b"-- a comment\n",
    "one comment": b"--",
    "blanks": b" \t\n",
    "almost verbatim": b'"[" ',
}


def filled(piece):
    """Texts of the piece again and again."""
    return lambda size: (piece * (size // len(piece) + 1))[:size - size % len(piece)]


timing.table({label: filled(piece) for label, piece in PIECES.items()}, 1 << 23)
