"""Sources that are made from a seed and a number of functions."""

COUNT_MAX = 900
# i is the function's number, p the one before it, j one of the first four, and k a number from 1 to 16
FIRST_BODIES = (
    "x + y * {k}",
    "if y == 0 then x else f{i}(x + {k}, y >> 1)",
    "let p = x ^ y, q = x & {k} in p + q",
)
LATER_BODIES = (
    "f{p}(x + {k}, y) + f{j}(x, y)",
    "f{j}(f{p}(x, y ^ {k}), y)",
    "let p = f{p}(y, x) in if p < {k} then f{j}(p, x) else p",
    "if f{j}(x, {k}) == y then x else f{p}(y, x + {k})",
)


def draws(seed):
    number = seed % (1 << 31)
    while True:
        number = (number * 1103515245 + 12345) % (1 << 31)
        yield number // 65536


def body(i, form, constant, first):
    bodies = FIRST_BODIES if i < 4 else LATER_BODIES
    return bodies[form % len(bodies)].format(i=i, p=i - 1, j=first % 4, k=constant % 16 + 1)


def source_lines(seed, count):
    row = draws(seed)
    bodies = [body(i, next(row), next(row), next(row)) for i in range(count)]
    return [f"fun f{i}(x:16, y:16):16 = {text}" for i, text in enumerate(bodies)] + [f"fun main(a:16, b:16):16 = f{count - 1}(a, b)"]


def arguments(seed, count):
    """What main is called with."""
    return [seed % 65536, count]
