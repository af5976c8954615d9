"""Writes build texts into the folder that is named: NAME.text, and NAME.values, its lines that set a value. They are the
same at every run."""
import sys


class Numbers:
    """Numbers that look random: a linear congruential generator."""

    def __init__(self, seed):
        self.state = seed

    def below(self, end):
        self.state = (self.state * 6364136223846793005 + 1442695040888963407) % 2**64
        return (self.state >> 33) % end

    def string(self, length):
        return bytes(self.below(256) for _ in range(length))


def word(string):
    """How build text spells a byte string."""
    if not string:
        return "\\e"
    return "".join(chr(b) if 0x21 <= b <= 0x7E and b not in b"\\=" else "\\x%02x" % b for b in string)


def some_of_all(numbers):
    """Binary keys and values of many lengths, every fifth a tombstone, with the longest key and the longest value."""
    rows = {b"": b"the empty key", b"\x00": b"", b"k" * 65535: b"the longest key", b"v" * 100: numbers.string(64) * 16384}
    rows.update({b"\xff" * 65535: b"", b"\xfe" * 65534: None, b"\\=": b"\\=", b" ": b" \n", b"\x7f\x80": b"\x7f\x80"})
    while len(rows) < 400:
        key = numbers.string(numbers.below(24))
        rows[key] = None if len(rows) % 5 == 0 else numbers.string(numbers.below(200))
    return rows


def tombstones(numbers):
    return {b"gone%03d" % i: None for i in range(300)}


def one_empty_entry(numbers):
    return {b"": b""}


def long_fronts(numbers):
    """Keys that share fronts of many lengths."""
    front = numbers.string(300)
    return {front[: numbers.below(300)] + b"%06d" % numbers.below(10**6): b"%d" % i for i in range(300)}


def whole_blocks(numbers):
    """Values of about the bytes at which a data block is closed, and keys one after the other."""
    return {b"%05d" % i: numbers.string(8) * 508 + b"." * (i % 60) for i in range(100)}


def main(folder):
    for at, make in enumerate([some_of_all, tombstones, one_empty_entry, long_fronts, whole_blocks]):
        rows = make(Numbers(at))
        name = make.__name__
        with open(f"{folder}/{name}.text", "w") as text, open(f"{folder}/{name}.values", "w") as values:
            for key in sorted(rows):
                value = rows[key]
                line = f"del {word(key)}\n" if value is None else f"put {word(key)} {word(value)}\n"
                text.write(line)
                if value is not None:
                    values.write(line)


main(sys.argv[1])
