#!/usr/bin/env python3
"""Times the program on the longest and deepest class texts, in a stack of 4 MiB.

Each long text is tried at a quarter, a half and all of a mebibyte. Where the time is linear in the text, the last column is
near 2. A text that is too high is refused at its 400th level, so that its time is mostly the lexer's. The deepest texts that
the profile allows are tried, and one deeper. The program must end with the status 1 on each: no text here is a plain class.
Usage, at the top of the repository: python3 bench/parser.py
"""
import timing

HEAD = b"class A feature f do "
TAIL = b" end end"
STACK = 1 << 22


def repeated(front, piece, back):
    """Texts with the piece as often as the size has room for."""
    return lambda size: front + piece * ((size - len(front) - len(back)) // len(piece)) + back


LONG = {
    "one sum": repeated(HEAD + b"x := 1", b" + 1", TAIL),
    "one chain of calls": repeated(HEAD + b"a", b".b", TAIL),
    "one argument list": repeated(HEAD + b"a (1", b", 1", b")" + TAIL),
    "parentheses": repeated(HEAD + b"x := ", b"(", TAIL),
    "signs": repeated(HEAD + b"x := ", b"-", TAIL),
    "nested ifs": repeated(HEAD, b"if a then ", TAIL),
    "elseifs": repeated(HEAD + b"if a then ", b"elseif a then ", b"end" + TAIL),
    "assignments": repeated(HEAD, b"x := 1 + 2 * (y - z) ", TAIL),
    "assertions": repeated(b"class A invariant ", b"a: b = c; ", b" end"),
    "semicolons": repeated(HEAD, b";", TAIL),
    "attributes": repeated(b"class A feature ", b"f: B ", b"end"),
    "routines": repeated(b"class A feature ", b"f do end ", b"end"),
    "names of attributes": repeated(b"class A feature f", b", f", b": B end"),
    "arguments": repeated(b"class A feature f (x: B", b"; x: B", b") do end end"),
    "locals": repeated(b"class A feature f local ", b"x: B ", b"do end end"),
    "parents": repeated(b"class A inherit ", b"B ", b"end"),
    "renamings": repeated(b"class A inherit B rename a as b", b", a as b", b" end end"),
    "formals": repeated(b"class A [G", b", G -> B", b"] end"),
    "notes": repeated(b"note ", b"a: 1, b; ", b"class A end"),
    "one type": repeated(b"class A feature f: ", b"B [", b" end"),
}


def deep(opening, middle, closing, count):
    return HEAD + b"x := " + opening * count + middle + closing * count + TAIL


DEEP = {
    "398 parentheses": deep(b"(", b"True", b")", 398),
    "399 parentheses": deep(b"(", b"True", b")", 399),
    "398 argument lists": deep(b"f (", b"1", b")", 398),
    "399 argument lists": deep(b"f (", b"1", b")", 399),
    "398 calls of calls": deep(b"a.f (", b"1", b")", 398),
    "398 creations": deep(b"create {A}.f (", b"1", b")", 398),
    "398 precursors": deep(b"Precursor {A} (", b"1", b")", 398),
    "199 tests": deep(b"attached {A} (", b"1", b")", 199),
    "199 sums": deep(b"1 + (", b"1", b")", 199),
    "398 signs": deep(b"- ", b"1", b"", 398),
    "398 powers": deep(b"1 ^ ", b"1", b"", 398),
    "399 ifs": HEAD + b"if a then " * 399 + b"end " * 399 + TAIL,
    "399 elses": HEAD + b"if a then else " * 399 + b"end " * 399 + TAIL,
    "399 loops": HEAD + b"from until a loop " * 399 + b"end " * 399 + TAIL,
    "400 ifs": HEAD + b"if a then " * 400 + b"end " * 400 + TAIL,
    "400 types": b"class A feature f: " + b"B [" * 399 + b"B" + b"]" * 399 + b" end",
    "100000 features": b"class A feature " + b"f do end " * 100000 + b"end",
}


timing.table(LONG, STACK)
for label, text in DEEP.items():
    print("%-24s %8.1fms" % (label, 1000 * timing.seconds(text, 1, STACK)))
