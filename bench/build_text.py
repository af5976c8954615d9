"""Writes build text of so many entries: the keys i * 2654435761 modulo 2^32 as eight hexadecimal digits, rising, with the
values v1, v2, .. by i. With the second word `small` they are tombstones of the first keys of three characters that
stand for themselves instead: the smallest entries of which there are so many, 778688 at most."""
import itertools
import sys

count = int(sys.argv[1])
if sys.argv[2:] == ["small"]:
    characters = [chr(code) for code in range(33, 127) if chr(code) not in "\\="]
    keys = itertools.islice(itertools.product(characters, repeat=3), count)
    sys.stdout.write("".join("del %s\n" % "".join(key) for key in keys))
else:
    rows = sorted((i * 2654435761 % 2**32, i) for i in range(1, count + 1))
    sys.stdout.write("".join("put %08x v%d\n" % row for row in rows))
