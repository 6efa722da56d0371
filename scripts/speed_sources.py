"""Sources of growing size for the speed scripts, and a Verilog file."""
from files import examples, written

LOOP = ["9999", "3", "200"]  # how often main goes through the functions, and what it begins with
SITES = (4, 16, 64, 256)


class Source:
    """A source by a name, with main's arguments, how many functions it has, and its number of nodes if that is known."""

    def __init__(self, name, text, args, functions, nodes=None):
        self.name, self.text, self.args, self.functions, self.nodes = name, text, args, functions, nodes


def draws():
    x = 1
    while True:
        x = (x * 1103515245 + 12345) % 2**31
        yield x // 65536


def calls(count):
    """So many functions that call each other, drawn from the numbers that 1 begins, and a main that goes through them again and
    again.
    """
    row, nodes, lines = draws(), 0, []
    for i in range(count):
        d, k, j, p = next(row), next(row) % 16 + 1, next(row) % 4, i - 1
        if i < 4:
            body, size = [
                (f"x + y * {k}", 5),
                (f"if y == 0 then x else f{i}(x + {k}, y >> 1)", 12),
                (f"let p = x ^ y, q = x & {k} in p + q", 10),
            ][d % 3]
        else:
            body, size = [
                (f"f{p}(x + {k}, y) + f{j}(x, y)", 9),
                (f"f{j}(f{p}(x, y ^ {k}), y)", 7),
                (f"let p = f{p}(y, x) in if p < {k} then f{j}(p, x) else p", 12),
                (f"if f{j}(x, {k}) == y then x else f{p}(y, x + {k})", 12),
            ][d % 4]
        nodes += size
        lines.append(f"fun f{i}(x:16, y:16):16 = {body}\n")
    return Source(f"{count} functions with calls", "".join(lines) + main_of(count - 1, 16), LOOP, count, nodes + 15)


def sums(count):
    """The same with functions that each are a sum of products, behind a call of the function before."""
    terms = 16
    lines = []
    for i in range(count):
        products = " + ".join(f"(x ^ {j + 1}) * y" for j in range(terms))
        inner = f"f{i - 1}(x + {i}, y)" if i else "x + y"
        lines.append(f"fun f{i}(x:32, y:32):32 = let s = {inner} in s + {products}\n")
    nodes = count * (6 * terms + 7) + 13
    return Source(f"{count} functions of sums", "".join(lines) + main_of(count - 1, 32), LOOP, count, nodes)


def main_of(function, width):
    return (
        f"fun main(n:{width}, x:{width}, y:{width}):{width} = "
        f"let z = f{function}(x, y) in if n == 0 then z else main(n - 1, z, y)\n"
    )


def busy():
    """One multiplication of 32 bits that never ends, as its factors are rotated."""
    text = (
        "fun mul(x:32, y:32, acc:32):32 =\n"
        "  if x == 0 then acc\n"
        "  else mul(x << 1 | x >> 31, y >> 1 | y << 31, if bits(y, 0, 0) == 1 then acc + x else acc)\n"
        "fun main(a:32, b:32):32 = mul(a, b, 0)\n"
    )
    return Source("one multiplication without an end", text, ["3000000001", "2863311531"], 2, 33)


def work():
    """A loop of multiplications of 32 bits, by shifts and additions."""
    text = (
        "fun mul(x:32, y:32, acc:32):32 =\n"
        "  if y == 0 then acc else mul(x << 1, y >> 1, if bits(y, 0, 0) == 1 then acc + x else acc)\n"
        "fun main(n:32, a:32, z:32):32 = if n == 0 then z else main(n - 1, a, mul(z, a, n))\n"
    )
    return Source("a loop of multiplications", text, ["4000000000", "3000000001", "7"], 2, 35)


def products():
    """The multiplication of 8 bits of examples/multiply.safl, again and again without an end."""
    text = (
        "fun mul(x:8, y:8, acc:8):8 =\n"
        "  if (x==0)|(y==0) then acc\n"
        "  else mul(x<<1, y>>1, if bits(y,0,0)==1 then acc+x else acc)\n"
        "fun main(a:8, b:8):8 = main(a + 37, b + mul(a, b, 0))\n"
    )
    return Source("products of 8 bits without an end", text, ["5", "3"], 2)


def sites():
    """1,000 functions with 4,000 call sites: the most of both that a source may have."""
    lines = [f"fun f{i}(x:8):8 = x + {i}\n" for i in range(4)]
    for i in range(4, 999):
        a, b, c, d = i - 1, i - 2, i // 2, i % 4
        body = [
            f"f{a}(f{b}(x) + f{c}(f{d}(x)))",
            f"let y = f{a}(x), z = f{b}(x) in if f{c}(y) == 0 then f{d}(z) else y",
            f"if f{a}(x) == f{b}(x) then f{c}(x) else f{d}(x)",
        ][i % 3]
        lines.append(f"fun f{i}(x:8):8 = {body}\n")
    twenty = " ^ ".join(f"f{998 - i}(x)" for i in range(20))
    return Source("1,000 functions with 4,000 sites", "".join(lines) + f"fun main(x:8):8 = {twenty}\n", ["5"], 1000)


def wide(count):
    """A main with so many call sites that are asked for at once, each with products as its argument."""

    def part(size):
        return f"({part(size // 2)} + {part(size - size // 2)})" if size > 1 else "f(a * a * a * a * a)"

    text = f"fun f(x:128):128 = x + 1\nfun main(a:128):128 = {part(count)}\n"
    return Source(f"a sum of {count:,} calls", text, ["5"], 2, 11 * count + 2)


def largest():
    """Nearly as many functions, call sites and nodes as a source may have; its circuit is among the largest that there are,
    since each call hands on ten constants, and all calls of a function are rivals."""
    names = [f"a{i}" for i in range(10)]
    head = f"({', '.join(f'{name}:16' for name in names)}):16"
    lines = [f"fun f{i}{head} = a0 + a9\n" for i in range(4)]
    for i in range(4, 999):
        callees = (i - 1, i % 4, i // 2, (i + 1) % 4)
        each = [f"f{callee}({', '.join(str((i * 7 + k * 3 + j) % 65536) for j in range(10))})" for k, callee in enumerate(callees)]
        lines.append(f"fun f{i}{head} = ({each[0]} + {each[1]}) ^ ({each[2]} + {each[3]})\n")
    text = "".join(lines) + f"fun main(x:16):16 = f998({', '.join(['x'] * 10)})\n"
    return Source("999 functions, 3,981 sites with ten arguments", text, ["5"], 1000)


def sized():
    """Sources of growing size."""
    return [calls(count) for count in (100, 300, 900)] + [sums(count) for count in (50, 150, 485)]


def shared(count, is_parallel):
    """A unit with so many call sites, a power of two: all at once, so that it has an arbiter, or each in a branch of its own,
    so that it has none."""

    def part(first, size):
        if size == 1:
            return f"f(a, {first % 256})"
        left, right = part(first, size // 2), part(first + size // 2, size // 2)
        if is_parallel:
            return f"({left}) ^ ({right})"
        bit = (size - 1).bit_length() - 1
        return f"(if bits(a, {bit % 8}, {bit % 8}) == 1 then {left} else {right})"

    name = f"{count} sites {'at once' if is_parallel else 'in branches'}"
    return Source(name, f"fun f(x:8, y:8):8 = (x ^ y) + 1\nfun main(a:8):8 = {part(0, count)}\n", ["5"], 2)


def with_units(folder):
    """The names and files of the examples, and of units with several call sites, which are written into the folder."""
    units = [shared(count, is_parallel) for is_parallel in (True, False) for count in SITES]
    return examples() + [(unit.name, written(folder, f"{unit.name}.safl".replace(" ", "_"), unit.text)) for unit in units]


def file_of_wires(count):
    """A Verilog file of so many wires of 64 bits, of which nearly all change in every cycle."""
    row = draws()
    head = ["module wide (clk, rst, start, done, result);", "  input clk;", "  input rst;", "  input [0:0] start;"]
    head += ["  output [0:0] done;", "  output [63:0] result;", "  reg [63:0] r;", "  wire [0:0] never;"]
    wires = [f"  wire [63:0] n${i};" for i in range(count)]
    cells = ["  assign never = 1'd0;", "  assign n$0 = ~r;"]
    for i in range(1, count):
        cells.append(f"  assign n${i} = n${i - 1} {'+^-'[i % 3]} n${next(row) * 40503 % i};")
    last = f"n${count - 1}"
    end = ["  assign done = never;", f"  assign result = {last};"]
    end.append(f"  always @(posedge clk) if (rst) r <= 64'd12345; else r <= {last};")
    return "\n".join(head + wires + cells + end + ["endmodule"]) + "\n"
