"""The value change dump that `safl sim --vcd` writes, read while it is written: the changes of the signals that are asked for."""
import bisect
from array import array
from dataclasses import dataclass

SLICE = 1000  # how many cycles are read before it is asked whether enough changes are kept
FOREVER = 1 << 62


class Signal:
    """A signal: its width, the word that it has first, and the cycles and the words of its changes, of which that is the first.

    A signal of one bit goes to and fro, so only its first word is kept. Words above 64 bits are kept as bytes, the lowest first.
    """

    def __init__(self, width):
        self.width, self.size, self.first = width, (width + 7) // 8, 0
        self.cycles, self.words = array("I"), array("Q") if width <= 64 else bytearray()

    def begin(self, cycle, word):
        self.first = word
        self.add(cycle, word)

    def add(self, cycle, word):
        self.cycles.append(cycle)
        if self.width > 64:
            self.words += word.to_bytes(self.size, "little")
        elif self.width > 1:
            self.words.append(word)

    def weight(self):
        """How many bytes the changes take, about."""
        return len(self.cycles) * (1 + (self.size if self.width > 1 else 0))

    def rises(self):
        """The cycles in which a signal of one bit becomes 1."""
        return self.cycles[0 if self.first else 1::2]

    def spans(self, cycles):
        """The spans of cycles in which a signal of one bit is 1: first cycle, and the one after the last."""
        begins = self.rises()
        ends = self.cycles[1 if self.first else 2::2]
        return zip(begins, [*ends, cycles] if len(ends) < len(begins) else ends)

    def clipped(self, first, end):
        """The changes of a signal of one bit in these cycles."""
        found = Signal(1)
        begin = max(0, bisect.bisect_right(self.cycles, first) - 1)
        found.first = self.first ^ begin & 1
        found.cycles = self.cycles[begin:bisect.bisect_left(self.cycles, end)]
        found.cycles[0] = max(first, found.cycles[0])
        return found


class Last:
    """The last word of a signal: what is noted of a wave before its window."""

    def __init__(self, signal):
        self.word, self.width = signal.first, signal.width

    def add(self, _, word):
        self.word = word


@dataclass
class Window:
    """Which signals are kept as waves, all if none are named, and in which cycles: from `first` to before `end`, and as many as
    take about `most` bytes."""

    names: frozenset = None
    first: int = 0
    end: int = FOREVER
    most: int = 0

    def has(self, name):
        return self.most > 0 and (self.names is None or name in self.names)


class Adders:
    """What to do with a line of the dump: for a signal of one bit by the whole line, and for others by the signal's code."""

    def __init__(self, signals):
        self.bits, self.wide = {}, {}
        for code, signal in signals.items():
            if signal.width > 1:
                self.wide[code] = signal.add
            elif isinstance(signal, Signal):
                self.bits[b"0" + code + b"\n"] = self.bits[b"1" + code + b"\n"] = signal.cycles.append
            else:
                self.bits[b"0" + code + b"\n"] = lambda now, add=signal.add: add(now, 0)
                self.bits[b"1" + code + b"\n"] = lambda now, add=signal.add: add(now, 1)


class Dump:
    """The widths of all signals in order; the watched signals, of one bit each, for the whole run; the waves, for the window,
    which is over before `wave_end`; and the number of cycles, 0 if the dump ends before its first one is over. `progress` is told
    how far the reading has come."""

    def __init__(self, is_watched, window, progress):
        self.widths, self.watched, self.waves, self.cycles = {}, {}, {}, 0
        self.is_watched, self.window, self.wave_end, self.progress = is_watched, window, window.first, progress

    def read(self, lines):
        """Reads all lines, as they come."""
        lines = iter(lines)
        watched, waves = self.header(lines)
        self.body(lines, watched, waves)
        for name in filter(self.window.has, self.watched):
            self.waves[name] = self.watched[name].clipped(self.window.first, self.wave_end)

    def header(self, lines):
        """Reads the declarations. Gives the watched signals and the other waves by their codes."""
        watched, waves = {}, {}
        for line in lines:
            words = line.split()
            if words[0] == b"$enddefinitions":
                break
            if words[0] == b"$var":
                width, code, name = int(words[2]), words[3], words[4].decode()
                self.widths[name] = width
                if self.is_watched(name):
                    self.watched[name] = watched[code] = Signal(width)
                elif self.window.has(name):
                    self.waves[name] = waves[code] = Signal(width)
        return watched, waves

    def body(self, lines, watched, waves):
        """Reads the changes: before the window only the last word of each wave is noted, and after it none is."""
        now, window = self.beginning(lines, {**watched, **waves}), self.window
        if window.first and now:
            lasts = {code: Last(signal) for code, signal in waves.items()}
            now = self.through(lines, Adders({**watched, **lasts}), now, window.first)
            for code, signal in waves.items():
                del signal.cycles[:], signal.words[:]
                signal.begin(window.first, lasts[code].word)
        adders, kept = Adders({**watched, **waves}), list(waves.values())
        while now is not None and now < window.end and sum(signal.weight() for signal in kept) < window.most:
            now = self.through(lines, adders, now, min(now + SLICE, window.end))
            self.wave_end = self.cycles if now is None else min(now, window.end)
        adders = Adders(watched)
        while now is not None:
            now = self.through(lines, adders, now, now + 100 * SLICE)

    def beginning(self, lines, signals):
        """Notes the words in the first cycle, which all signals have. Gives the cycle after it, or nothing at the end."""
        for line in lines:
            if line[0] in b"01":
                word, code = line[0] - 48, line[1:-1]
            elif line[0] in b"b":
                digits, code = line.split()
                word = int(digits[1:], 2)
            elif line[0] in b"#" and int(line[1:]):
                return int(line[1:])
            else:
                continue
            if code in signals:
                signals[code].begin(0, word)
        return None

    def through(self, lines, adders, now, stop):
        """Notes the changes in cycles before `stop`. Gives the cycle that was reached, or nothing at the end."""
        bit, wide = adders.bits.get, adders.wide.get
        self.progress(now)
        for line in lines:
            add = bit(line)
            if add:
                add(now)
            elif line[0] == 35:  # #, for a cycle
                now = int(line[1:])
                if now >= stop:
                    return now
            elif line[0] == 98:  # b, for a signal of several bits
                word, code = line.split()
                add = wide(code)
                if add:
                    add(now, int(word[1:], 2))
        self.cycles = now
        return None
