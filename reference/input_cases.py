"""Cases for the rules of the input: what a line is, what a number is, how much is read."""

from command import LONGEST_INPUT

EXAMPLE = b"""add 7 1 100
add 7 3 300
add 7 3 301
floor 7 2
resume 7
resume 8
del 7 2
add 7
"""

SPACES = [b"add  7 2 200", b"add 7  2 200", b"add 7 2  200", b" add 7 2 200",
          b"add 7 2 200 ", b"  add 7 2 200", b"add 7 2 200  ", b" ", b"  ",
          b"find  7 1", b"find 7 1 ", b" find 7 1", b"resume 7 ", b" resume 7",
          b"resume  7", b"add 7 2 ", b"resume ", b"add ", b"floor 7  1"]

LEADING_ZEROS = [b"add 07 2 200", b"add 7 02 200", b"add 7 2 0200", b"add 00 2 200",
                 b"add 7 00 200", b"add 7 2 00", b"find 07 1", b"find 7 01",
                 b"del 7 01", b"del 007 1", b"floor 00 0", b"resume 07", b"resume 00",
                 b"add 7 2 000000000000000000000000200", b"resume 0000000007"]

CONTROL_BYTES = [b"find 7 1\r", b"\rfind 7 1", b"\r", b"find\t7 1", b"find 7\t1",
                 b"\tfind 7 1", b"find 7 1\t", b"\t", b"find 7 1\0", b"\0", b"\0find 7 1",
                 b"find\0007 1", b"fi\0nd 7 1", b"find 7 1\x0b", b"find 7 1\x0c",
                 b"find 7 1\x1a", b"find 7 1\x04", b"\x1b[Afind 7 1", b"find 7 1\x7f",
                 b"add 7 2 200\r", b"add 7 2 2\x000", b"resume 7\x1f", b"find 7 \x01"]

HIGH_BYTES = [b"find 7 1\xff", b"\xff", b"\xfffind 7 1", b"find\xa07 1", b"find 7\xa01",
              b"find 7 1\x80", b"\x80\x81\x82", b"find \xb7 1", b"find 7 \xb1",
              b"\xe6ind 7 1", b"\xef\xbb\xbffind 7 1", b"find 7 \xc2\xb9",
              b"find \xef\xbc\x97 1", b"find 7 \xd9\xa1", b"find\xc2\xa07 1",
              b"add 7 2 \xb2\xb0\xb0", b"resume \xff\xff\xff\xff"]

SIGNS = [b"add +7 2 200", b"add 7 +2 200", b"add 7 2 +200", b"add -7 2 200",
         b"add 7 -2 200", b"add 7 2 -200", b"find 7 -1", b"find 7 -0", b"find 7 +1",
         b"find 7.0 1", b"find 7 1.", b"find 7 .1", b"find 7 1e0", b"find 0x7 1",
         b"find 7 0b1", b"find 7 1_0", b"add 7 2 1,000", b"add 7 2 2_00", b"find 7 /",
         b"find 7 :", b"resume 7:", b"resume /", b"find 7 ;", b"find 7 1;", b"find 7,1"]

WRONG_WORDS = [b"ad 7 2 200", b"adds 7 2 200", b"insert 7 2 200", b"dele 7 1", b"de 7 1",
               b"delete 7 1", b"fin 7 1", b"finds 7 1", b"floo 7 1", b"floors 7 1",
               b"resum 7", b"resumes 7", b"7", b"7 1", b"7 1 100", b"rank 7 1", b"quit",
               b"help", b"#", b"# find 7 1", b"add,7,2,200", b"'find' 7 1", b"findfind 7 1",
               b"find find 1", b"find 7 find", b"resume add", b"resume x", b"find a b",
               b"add 7 2 x", b"add x 2 200", b"add 7 x 200", b"add 7 2 200x", b"find7 1",
               b"find 7 1a", b"find a7 1", b"resume7", b"x" * 70]

UPPERCASE = [b"ADD 7 2 200", b"Add 7 2 200", b"adD 7 2 200", b"DEL 7 1", b"Del 7 1",
             b"FIND 7 1", b"Find 7 1", b"finD 7 1", b"FLOOR 7 1", b"Floor 7 1",
             b"RESUME 7", b"Resume 7", b"resumE 7"]

WRONG_COUNTS = [b"add", b"add 7", b"add 7 2", b"add 7 2 200 1", b"add 7 2 200 1 1",
                b"del", b"del 7", b"del 7 1 100", b"del 7 1 100 1", b"find", b"find 7",
                b"find 7 1 100", b"find 7 1 1 1", b"floor", b"floor 7", b"floor 7 1 100",
                b"resume", b"resume 7 1", b"resume 7 1 100"]


def joined(lines):
    """The lines, each ended."""
    return b"".join(line + b"\n" for line in lines)


def guarded(bad):
    """Bad lines between good ones that show that nothing was changed by them."""
    before = [b"add 7 1 100", b"add 6 9 69"]
    after = [b"find 7 1", b"find 7 2", b"resume 7", b"resume 0", b"floor 7 4294967295",
             b"add 7 2 201", b"find 7 2", b"del 7 1", b"floor 7 1"]
    return joined(before + bad + after)


def line_lengths():
    """Lines of 79 to 82 bytes and far longer ones, good words at their start."""
    lines = []
    for length in (46, 79, 80, 81, 82, 127, 128, 129, 255, 256, 257):
        lines.append(b"add 7 2 " + b"1" * (length - 8))
        lines.append(b"find 7 1" + b" " * (length - 8))
        lines.append(b"z" * length)
    return guarded(lines + [b"z" * 5000])


def ranges():
    """Numbers at both sides of their ranges, in every place."""
    part, over = b"4294967295", b"4294967296"
    lines = [b"add %s %s 1" % (case, step) for case in (b"0", part, over)
             for step in (b"0", part, over)]
    for name in (b"find", b"floor", b"del"):
        lines += [b"%s %s %s" % (name, case, step) for case in (part, over)
                  for step in (part, over)]
    lines += [b"resume 0", b"resume " + part, b"resume " + over]
    for value in (b"4294967297", b"42949672950", b"8589934591", b"9999999999",
                  b"18446744073709551615", b"18446744073709551616"):
        lines += [b"add %s 1 1" % value, b"add 1 %s 1" % value, b"find 1 " + value,
                  b"resume " + value]
    return guarded(lines)


def handles():
    """Handles at both sides of their range."""
    values = [b"0", b"1", b"9", b"10", b"4294967295", b"4294967296", b"9223372036854775807",
              b"9223372036854775808", b"18446744073709551609", b"18446744073709551610",
              b"18446744073709551614", b"18446744073709551615", b"18446744073709551616",
              b"18446744073709551617", b"18446744073709551620", b"18446744073709551700",
              b"20000000000000000000", b"27670116110564327424", b"99999999999999999999",
              b"100000000000000000000", b"184467440737095516150", b"36893488147419103232"]
    adds = [b"add 5 %d %s" % (step, value) for step, value in enumerate(values)]
    finds = [b"find 5 %d" % step for step in range(len(values))]
    floors = [b"floor 5 %d" % step for step in range(len(values))]
    return joined(adds + finds + floors + [b"resume 5"])


def long_digits():
    """Very long digit strings; some would wrap around to small numbers."""
    wrapped = [2**64 + 7, 2**128 + 7, 2**32 + 7, 2**96 + 7, 2**160 + 7, 10**19, 10**38, 10**60]
    lines = []
    for value in wrapped:
        lines += [b"find %d 1" % value, b"find 7 %d" % (value - 6), b"resume %d" % value,
                  b"add 7 2 %d" % (value + 2**64)]
    lines += [b"resume " + b"9" * count for count in (10, 11, 19, 20, 21, 39, 40, 73, 74)]
    lines += [b"resume " + b"0" * count for count in (2, 20, 73, 74)]
    lines += [b"add 7 2 " + b"1" * 72, b"add 7 2 " + b"1" * 73, b"1" * 80, b"1" * 81]
    return guarded(lines)


def longest_good():
    """The longest good lines, and the lowest and highest keys."""
    top = b"4294967295 4294967295"
    return joined([b"floor 0 0", b"floor " + top, b"resume 0", b"resume 4294967295",
                   b"add " + top + b" 18446744073709551615", b"add 0 0 0", b"find 0 0",
                   b"find " + top, b"floor 0 0", b"floor " + top, b"floor 4294967295 4294967294",
                   b"resume 0", b"resume 4294967295", b"resume 1", b"resume 4294967294",
                   b"add " + top + b" 1", b"add 0 0 1", b"del 0 0", b"del " + top,
                   b"floor " + top, b"del " + top, b"resume 4294967295"])


def filler(length):
    """Good lines of this many bytes in all, the last one ended."""
    lines, size, step = [], 0, 0
    while length - size > 60:
        line = b"add 3 %d %d\n" % (step % 700, step) if step % 3 else b"floor 3 %d\n" % step
        lines.append(line)
        size += len(line)
        step += 1
    rest = length - size
    tens, over = divmod(rest - 9, 10)
    lines += [b"find 3 10\n"] * tens + [b"\n"] * over + [b"find 3 1\n"]
    return b"".join(lines)


def sizes():
    """Inputs just at the longest length and just over it."""
    full = LONGEST_INPUT
    return {
        "size-empty": b"",
        "size-one-byte": b"x",
        "size-one-lf": b"\n",
        "size-no-final-lf": b"add 7 1 100\nfind 7 1\nfind 7 1",
        "size-no-final-lf-bad": b"add 7 1 100\nfind 7 1\nfind 7",
        "size-longest-no-final-lf": filler(full - 8) + b"resume 3",
        "size-longest-all-lf": b"\n" * full,
        "size-longest-one-line": b"a" * full,
        "size-over-by-one-lf": filler(full - 8) + b"resume 3\n",
        "size-over-one-line": b"a" * (full + 1),
    }


def cases():
    """Every case of this kind by its name."""
    found = {
        "example": EXAMPLE,
        "example-no-final-lf": EXAMPLE[:-1],
        "example-crlf": EXAMPLE.replace(b"\n", b"\r\n"),
        "input-spaces": guarded(SPACES),
        "input-leading-zeros": guarded(LEADING_ZEROS),
        "input-control-bytes": guarded(CONTROL_BYTES),
        "input-high-bytes": guarded(HIGH_BYTES),
        "input-all-bytes": guarded([b"find 7 " + bytes([byte]) for byte in range(256)]),
        "input-signs": guarded(SIGNS),
        "input-wrong-words": guarded(WRONG_WORDS),
        "input-wrong-counts": guarded(WRONG_COUNTS),
        "input-uppercase": guarded(UPPERCASE),
        "input-empty-lines": b"\n\nadd 7 1 100\n\n\nfind 7 1\n\n",
        "input-line-lengths": line_lengths(),
        "input-ranges": ranges(),
        "input-handles": handles(),
        "input-long-digits": long_digits(),
        "input-longest-good": longest_good(),
    }
    return found | sizes()
