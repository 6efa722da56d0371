"""What the circuits of control, lines and searches are to answer."""
import collections
import time

from references.words import joined, number, saturated, signed

QUEENS = (1, 0, 0, 2, 10, 4, 40, 92)  # for boards of 1 to 8: sequence A000170 of the OEIS


def clock(seconds):
    now = time.gmtime(seconds)
    word = 0
    for value, width in zip(now[:6], (12, 4, 5, 5, 6, 6)):
        word = word << width | value
    return time.strftime("%Y-%m-%d %H:%M:%S", now), [seconds], word


def pid(title, want, got, gains, state):
    """State is the sum of the errors and the last measured value."""
    total, last = state
    error = want - got
    u = gains[0] * error + gains[1] * (total + error) + gains[2] * (last - got)
    out = saturated(u >> 8)
    after = total if out != u >> 8 and (error < 0) == (u < 0) else total + error
    before, state = (signed(each, 32) << 16 | signed(measured, 16) for each, measured in ((total, last), (after, got)))
    return title, [signed(want, 16), signed(got, 16), joined(gains, 16), before], signed(out, 16) << 48 | state


def pid_stream(title, wants, gains):
    """A controller with a process that goes an eighth of the way to the output in each step."""
    calls, state, got = [], (0, 0), 0
    for i, want in enumerate(wants):
        calls.append((f"{title}, step {i + 1}", want, got, gains, state))
        result = pid(*calls[-1])[2]
        out = (result >> 48 ^ 0x8000) - 0x8000
        state = ((result >> 16 & 0xFFFFFFFF ^ 1 << 31) - (1 << 31), got)
        got += (out - got) // 8
    return calls


def life(title, rows, n):
    """The board as rows of eight characters, a live cell as #."""
    cells = {(r, c) for r, row in enumerate(rows) for c, cell in enumerate(row) if cell == "#"}
    board = cells
    for _ in range(n):
        near = collections.Counter(((r + i) % 16, (c + j) % 8) for r, c in board for i in (-1, 0, 1) for j in (-1, 0, 1) if i or j)
        board = {cell for cell, count in near.items() if count == 3 or count == 2 and cell in board}
    before, after = (sum(1 << (127 - 8 * r - c) for r, c in each) for each in (cells, board))
    return f"{title}, {n} generations", [before, n], after


def uart(byte, parity=0, before=5, spikes=(), wrong=""):
    """A frame after so many samples of an idle line, with samples turned over, or with a wrong parity or stop bit; or no frame."""
    if byte is None:
        return "no frame, but spikes", [joined([int(i not in spikes) for i in range(128)], 1), parity], 3 << 8
    frame = [0] + [byte >> i & 1 for i in range(8)]
    if parity:
        frame.append((sum(frame) + parity + (wrong == "parity")) % 2)
    frame.append(int(wrong != "stop"))
    line = [1] * before + [bit for bit in frame for _ in range(8)] + [1] * 128
    for place in spikes:
        line[place] ^= 1
    notes = [["no parity", "odd parity", "even parity"][parity]]
    notes += ["spikes on the line"] * bool(spikes) + [f"a wrong {wrong} bit"] * bool(wrong)
    return f"{byte:#04x}, {', '.join(notes)}", [joined(line[:128], 1), parity], {"": 0, "parity": 1, "stop": 2}[wrong] << 8 | byte


def queens(n):
    return f"{n} queens", [n], QUEENS[n - 1]


STACK = "HALT ADD SUB MUL AND OR XOR LESS EQUAL LEFT RIGHT SWAP DROP".split()
NUMBERED = {"PUSH": 1, "EXTEND": 2, "PICK": 3, "PUT": 4, "JUMP": 5, "ZERO": 6}


def assembled(text):
    """The 16 bytes of a program; a word with a colon names the next instruction, and a jump may have this name."""
    names, code = {}, []
    for word in text.split():
        if word.endswith(":"):
            names[word[:-1]] = len(code)
        elif word in NUMBERED:
            code.append(NUMBERED[word] << 4)
        elif word in STACK:
            code.append(STACK.index(word))
        else:
            code[-1] = code[-1], word
    whole = [each if isinstance(each, int) else each[0] | (names[each[1]] if each[1] in names else int(each[1])) for each in code]
    return bytes(whole).ljust(16, b"\0")


def stack(title, text, x, y):
    """The program by a list, whose last entry is the top."""
    code = text if isinstance(text, bytes) else assembled(text)
    at, words = 0, [0] * 6 + [y, x]
    two = {
        "ADD": lambda a, b: a + b, "SUB": lambda a, b: a - b, "MUL": lambda a, b: a * b, "AND": lambda a, b: a & b, "OR": lambda a, b: a | b,
        "XOR": lambda a, b: a ^ b, "LESS": lambda a, b: a < b, "EQUAL": lambda a, b: a == b, "LEFT": lambda a, b: a << min(b, 16),
        "RIGHT": lambda a, b: a >> b, "SWAP": None, "DROP": None,
    }
    while code[at]:
        op, n = divmod(code[at], 16)
        at = (at + 1) % 16
        if op == 0:
            top = words.pop()
            if STACK[n] == "SWAP":
                words.insert(-1, top)
            elif STACK[n] != "DROP":
                words.append(int(two[STACK[n]](words.pop(), top)) % 65536)
        elif op == 2:
            words[-1] = (words[-1] << 4 | n) % 65536
        elif op == 4:
            top = words.pop()
            words.insert(0, 0)
            words[-1 - n % 8] = top
        elif op in (5, 6):
            at = n if op == 5 or words.pop() == 0 else at
        else:
            words.append(n if op == 1 else words[-1 - n % 8])
        words = ([0] * 8 + words)[-8:]
    return title, [number(code), x, y], words[-1]


def ws2812(red, green, blue, brightness):
    def light(channel):
        square = channel * (channel + 1) // 256
        return square * (brightness + 1) // 256

    bits = "".join(f"{light(channel):08b}" for channel in (green, red, blue))
    line = bits.replace("0", "z").replace("1", "110").replace("z", "100")
    return f"#{red:02x}{green:02x}{blue:02x}, brightness {brightness}", [red, green, blue, brightness], int(line, 2)
