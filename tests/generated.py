"""Cases that are made by a loop, for bench/scripts.py. `files` gives each a name and the text of a file of cases (README.md beside this has the
format). What is expected is worked out here, digit by digit."""

LOWER = "0123456789abcdef"
UPPER = "0123456789ABCDEF"
ONCE = """\
[args]
once
[stdin]
memory 4096
blocks 1
"""
WORLD = """\
[args]
replay
[stdin]
host 0x1000000
mediator 0x400000
disk 4096
lanes 1
guest 0 range 1000 64 heap 65536
guest 1 range 2000 64 heap 65536
map 0 0x0 0x100000 0x20000
map 1 0x0 0x200000 0x20000
"""
# more digits than three blocks of those that are read at once, and no whole number of these
LONG = 58


def digits_from(first, count):
    """The digits of so many bytes, of which this one is the first and each next one is the next number."""
    return "".join(LOWER[byte % 256 // 16] + LOWER[byte % 16] for byte in range(first, first + count))


def all_bytes(high, low):
    """The digits of all bytes in order, the high one of each in one case and the low one in another."""
    return "".join(one + other for one in high for other in low)


def pieces():
    """Words of digits of many lengths and beginnings, of 1 to 58 digits."""
    digits = all_bytes(LOWER, UPPER)
    return [digits[start : start + 1 + start % LONG] for start in range(len(digits) - LONG)]


def stored(words):
    """A script that stores each of these words over bytes eeh, and prints what was stored and a byte more."""
    script, printed = ONCE, "[stdout]\n"
    for word in words:
        script += f"fill 0 257 0xee\nstore 0 {word}\ndump 0 {len(word) // 2 + 1}\n"
        printed += f"{word.lower()}ee\n"
    return script + printed


def printed_bytes():
    """Replies with bytes of all kinds and many lengths. All bytes are in the memory in order, six times: few and many are loaded, and as many as
    reach the places where a long line is written in parts."""
    events = "[events]\n"
    for time in range(6):
        events += f"store 0 {256 * time} {digits_from(0, 256)}\n"
    events += "load 0 7 0 => bytes -\n"
    loads = [(first, count) for count in range(1, 71) for first in (0, 93, 187, 250)]
    loads += [(count % 5, count) for count in (255, 256, 257, 511, 512, 513, 1023, 1024, 1041)]
    for first, count in loads:
        events += f"load 0 {first} {count} => bytes {digits_from(first, count)}\n"
    return WORLD + events


def stored_bytes():
    """All bytes, the digits of each in either case."""
    return stored(all_bytes(high, low) for high in (LOWER, UPPER) for low in (LOWER, UPPER))


def even_words():
    """Few and many digits, two a byte."""
    return stored(word for word in pieces() if len(word) % 2 == 0)


def odd_words():
    """Few and many digits, one too few for their bytes. The line has no line feed."""
    rows = "".join(word + "\n" for word in pieces() if len(word) % 2)
    return f"{ONCE}store 0 $1\\\n[stderr]\nline 3: bad bytes\n[status]\n1\n[rows]\n{rows}"


def each_digit():
    """Each digit at each place of many digits. (What is no digit is tried at each place in nv_checks_program, since a script ends by its first fault.)"""
    digits = LOWER + UPPER[10:]
    return stored("7" * place + digit + "7" * (LONG - 1 - place) for place in range(LONG) for digit in digits)


def files():
    for make in (printed_bytes, stored_bytes, even_words, odd_words, each_digit):
        yield make.__name__, make()
