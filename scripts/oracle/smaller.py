#!/usr/bin/env python3
"""What `safl_bench opt` has to print (crates/safl_bench).

It makes the same net of single bits, by the same sequence of numbers, and makes it smaller by the rules of docs/COMMANDS.md: an
operation on constants is worked out, a copy is replaced by what it copies, a choice that is known by its branch, equal cells are one,
and a wire that nothing needs is left out.
"""
import argparse

NEAR = 32
OPERATORS = ("and", "or", "xor", "minus", "below")
MEANINGS = {
    "and": lambda a, b: a & b,
    "or": lambda a, b: a | b,
    "xor": lambda a, b: a ^ b,
    "minus": lambda a, b: (a - b) % 2,
    "below": lambda a, b: int(a < b),
    "not": lambda a: 1 - a,
}


def cells(wires, number):
    """The operation and the operands of each wire; signal 0 is the input."""
    for count in range(1, wires + 1):
        number = (number * 1_664_525 + 1_013_904_223) % 2**32
        a, b, c = (count - 1 - (number >> shift) % min(count, NEAR) for shift in (23, 18, 13))
        kind = number >> 28
        if kind == 0:
            yield "constant", ((number >> 27) % 2,)
        elif kind <= 2:
            yield "copy", (a,)
        elif kind <= 4:
            yield "choice", (c, a, b)
        elif kind == 5:
            yield "not", (a,)
        else:
            yield OPERATORS[(number >> 8) % 5], (a if kind < 15 else 0, b)


def folded(operation, operands):
    """A cell over values, or the value that it is."""
    if operation == "copy":
        return operands[0]
    if operation == "choice":
        condition, yes, no = operands
        if yes == no:
            return yes
        if condition[0] == "constant":
            return yes if condition[1] else no
    elif operation in MEANINGS and all(value[0] == "constant" for value in operands):
        return "constant", MEANINGS[operation](*(value[1] for value in operands))
    return operation, operands


def smaller(wires, seed):
    """How many signals are left: the input, and the cells that the output reaches."""
    values, numbers, made = [("input",)], {}, []
    for operation, operands in cells(wires, seed):
        value = (operation, *operands)
        if operation != "constant":
            value = folded(operation, tuple(values[s] for s in operands))
        if value[0] in MEANINGS or value[0] == "choice":
            if value not in numbers:
                numbers[value] = len(made)
                made.append(value)
            value = ("cell", numbers[value])
        values.append(value)
    left, seen = [values[-1]], set()
    while left:
        value = left.pop()
        if value in seen:
            continue
        seen.add(value)
        if value[0] == "cell":
            left += made[value[1]][1]
    return len(seen | {("input",)})


def main():
    reader = argparse.ArgumentParser(description=__doc__, formatter_class=argparse.RawDescriptionHelpFormatter)
    reader.add_argument("wires", type=int, nargs="?", default=1000, metavar="WIRES")
    reader.add_argument("seed", type=int, nargs="?", default=1, metavar="SEED")
    given = reader.parse_args()
    print(f"signals {given.wires + 1}\nsmaller {smaller(given.wires, given.seed % 2**32)}")


if __name__ == "__main__":
    main()
