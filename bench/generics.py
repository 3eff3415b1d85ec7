#!/usr/bin/env python3
"""Times the program on the types of classes, with one worker.

In the first system each class of a chain of four inherits from the one before with actuals of its own; in the second one chain
of generic classes passes its actuals on, each with its formals in the other order, so that each class gives each of its
ancestors two types. There is one of a size and one of twice that size. In the first the time is linear in the size, and the
last column near 2; in the second each class has as many ancestors as classes stand before it, and the last column is at most
near 4. The program must end with status 1. Usage, at the top of the repository: python3 bench/generics.py
"""
import tables

BOX = "class BOX [G] end"


def fours(count):
    """So many classes in chains of four over one generic class."""
    texts = [tables.APP, BOX]
    for i in range(0, count, 4):
        texts.append("class C%d [G, H] inherit BOX [ARRAY [G]] end" % i)
        for j in range(i + 1, i + 4):
            texts.append("class C%d [G, H] inherit C%d [H, BOX [G]] end" % (j, j - 1))
    return texts


def chain(count):
    """A chain of so many generic classes."""
    heirs = ["class C%d [G, H] inherit C%d [H, G] end" % (i + 1, i) for i in range(count - 1)]
    return [tables.APP, "class C0 [G, H] end", *heirs]


SYSTEMS = {
    "classes in chains of four": (fours, [2048, 4096], 1),
    "one chain of classes": (chain, [128, 255], 1),
}

if __name__ == "__main__":
    tables.table(SYSTEMS)
