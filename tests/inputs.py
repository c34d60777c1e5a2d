"""Inputs of the programs `curves`, `price` and `page`: at the edges of their rules, longer than one read, and damaged."""

LIMIT = 65536  # the most bytes of an hour, of a settle line and of an input of `price`; `curves` also reads so many at once
PAGE_LIMIT = 4096  # the most bytes of an input of `page`, which is a curve text


def hour(month, clock, runs, rng):
    """One hour's text; reserves of a few GW, so that errors stay within their bounds."""
    lines = [f"month={month}", f"hour={clock}"]
    generation = rng.randrange(40000000, 60000000)
    lines += [f"ongen={generation}", f"load={generation - rng.randrange(6000000)}", f"tie={rng.randrange(-500000, 500000)}"]
    lines += [f"{key}={rng.randrange(900000)}" for key in ("ns", "reg", "rrs", "nclr", "offns", "cold30")]
    lines += [f"shed={rng.choice((0, 0, 0, 120000))}", f"runs={runs}"]
    for _ in range(runs):
        limit = rng.randrange(40000000, 60000000)
        lines += [f"hsl={limit}", f"base={limit - rng.randrange(6000000)}"]
        lines += [f"{key}={rng.randrange(900000)}" for key in ("rrs", "nclr", "reg", "ns", "offns", "cold30", "short")]
    return "\n".join(lines) + "\n"


def history(each, runs, rng, times=1):
    """`each` hours in every group, as the program reads them, all of them so many times."""
    hours = []
    for season in ((12, 1, 2), (3, 4, 5), (6, 7, 8), (9, 10, 11)):
        for block in range(6):
            hours += [hour(rng.choice(season), (4 * block + rng.randrange(4) + 22) % 24, runs, rng) for _ in range(each)]
    rng.shuffle(hours)
    return ("voll=900000\nfloor=2000000\n" + "\n".join(hours * times)).encode()


def curves_whole(rng):
    """Inputs of `curves`, each with a name."""
    valid = history(2, 1, rng)
    yield "whole", valid
    yield "whole, with an empty line at the end", valid + b"\n"
    for cut in range(len(valid)):
        yield f"cut at byte {cut}", valid[:cut]
    head = b"voll=900000\nfloor=2000000\n"
    one = hour(7, 14, 2, rng).encode()
    yield "no hours", head
    yield "two empty lines in a row", head + one + b"\n\n" + one
    yield "an empty line first", head + b"\n" + one
    yield "empty voll line", b"\nfloor=1\n"
    yield "empty floor line", b"voll=1\n\n"
    for line in (b"voll=", b"voll=x\n", b"voll=01\n", b"voll=-1\n", b"voll=2000001\n", b"floor=1\n", b"voll=2000000\nfloor=20000001\n", b"voll=1\nfloor=-0\n"):
        yield f"settle line {line!r}", line + one
    yield "a voll line that never ends", b"voll=" + b"1" * 200000
    for length in (LIMIT - 1, LIMIT, LIMIT + 1):
        yield f"a voll line of {length} bytes", b"voll=" + b"1" * (length - 6) + b"\n" + b"floor=1\n"
        yield f"an hour of {length} bytes", head + b"x" * length + b"\n\n" + one
        yield f"an hour of {length} bytes in lines", head + (b"x" * 63 + b"\n") * (length // 64) + b"y" * (length % 64) + b"\n\n"
        yield f"a last hour of {length} bytes", head + b"x" * length
    for line in (b"month=7", b"hour=14", b"runs=2"):
        yield f"a mark on the line {line!r} of an hour", head + one.replace(line + b"\n", line + b"?\n", 1)
    yield "a mark on voll", head.replace(b"900000", b"900000?", 1) + one
    yield "a mark on floor", head.replace(b"2000000", b"2000000?", 1) + one
    yield "1001 hours in a group", head + b"\n".join([one] * 1001)
    far = one.replace(b"ongen=", b"ongen=1", 1)
    yield "an error beyond its bounds", head + one + b"\n" + far


def snapshot(resources):
    header = "month=7 hour=14 lambda=2500 factor=10000 prc=3000000 eea1=2300000 short=0"
    return (f"{header} count={len(resources)} " + " ".join(resources)).replace(" ", "\n") + "\n"


CURVES = "voll=900000\nfloor=2000000\n" + "mu=0\nsigma=1000000\n" * 24
UNITS = [
    "id=A kind=gen status=ON net=200000 lsl=100000 hsl=2000000 base=200000 nonspin=0 cold30=0",
    "id=B kind=gen status=ON net=95000 lsl=100000 hsl=1000000 base=93000 nonspin=0 cold30=0",
    "id=C kind=gen status=OFFNS net=0 lsl=0 hsl=293000 base=0 nonspin=0 cold30=0",
]
LISTING = (CURVES + "\n" + snapshot(UNITS)).encode()
# Units on which a number may be marked suspect, and one of each sort on which it may not.
MARKED = {
    "a unit that is OUT": "id=M kind=gen status=OUT net=-5? lsl=1? hsl=900000? base=0? nonspin=7? cold30=1",
    "an intermittent unit that is ON": "id=M kind=irr status=ON net=5 lsl=1 hsl=900000? base=0 nonspin=0 cold30=0",
    "a unit that is OFF, not cold30": "id=M kind=nuke status=OFF net=0 lsl=0 hsl=900000? base=0 nonspin=0 cold30=0",
    "a unit that is OFF and cold30": "id=M kind=nuke status=OFF net=0 lsl=0 hsl=900000? base=0 nonspin=0 cold30=1",
    "a unit that is ON below 95 percent": "id=M kind=wind status=ON net=94 lsl=100 hsl=900000 base=0? nonspin=0 cold30=0",
    "a unit that starts up without Non-Spin": "id=M kind=gen status=STARTUP net=5 lsl=1 hsl=900000 base=0 nonspin=0? cold30=0",
    "a unit that is OFFNS": "id=M kind=irr status=OFFNS net=0? lsl=0 hsl=1 base=0 nonspin=0 cold30=0",
    "a load that is not validated": "id=M kind=nclr rrsok=0 net=10 lpc=0 rrs=3?",
    "a controllable load": "id=M kind=clr base=1? lpc=1 nonspin=1 regup=1",
}


def longest(length):
    """An input of `price` of exactly so many bytes: accepted, as far as its length goes."""
    units, text = [], b""
    while True:
        units.append(f"id=U{len(units):04} kind=gen status=ON net=200000 lsl=100000 hsl={300000 + len(units)} base=200000 nonspin=0 cold30=0")
        more = (CURVES + "\n" + snapshot(units)).encode()
        if len(more) > length:
            break
        text = more
    # A longer id takes up what is left; every id can take eleven bytes more.
    for number in range(len(units) - 1):
        missing = min(length - len(text), 11)
        text = text.replace(b"id=U%04d\n" % number, b"id=U%04d%s\n" % (number, b"_" * missing))
    return text


def price_whole(rng):
    """Inputs of `price`, each with a name."""
    whole = LISTING
    yield "the listing", whole
    for length in (LIMIT - 1, LIMIT, LIMIT + 1):
        yield f"a right snapshot, {length} bytes in all", longest(length)
    for old, new in ((b"prc=3000000", b"prc=2300000"), (b"net=95000", b"net=94999"), (b"hsl=2000000", b"hsl="), (b"lambda=2500", b"lambda=900000"), (b"lambda=2500", b"lambda=1000000"), (b"id=C", b"id=A"), (b"kind=gen", b"kind=wind"), (b"count=3", b"count=4"), (b"count=3", b"count=2")):
        yield f"{old!r} as {new!r}", whole.replace(old, new, 1)
    for cut in range(len(whole)):
        yield f"cut at byte {cut}", whole[:cut]
    yield "no empty line", CURVES.encode()
    yield "an empty line in the snapshot", whole.replace(b"count=3\n", b"count=3\n\n")
    yield "an empty line after the snapshot", whole + b"\n"
    yield "one byte too many behind a right snapshot", longest(LIMIT) + b"\n"
    yield "many bytes behind the listing", whole + b"x" * (3 * LIMIT)
    for name, unit in MARKED.items():
        text = (CURVES + "\n" + snapshot(UNITS + [unit])).encode()
        yield f"a mark on {name}", text
        yield f"a mark on {name}, and a byte more", text + b"x"
    for line in dict.fromkeys(CURVES.encode().splitlines() + snapshot(UNITS).encode().splitlines()):
        yield f"a mark on the line {line!r}", whole.replace(line + b"\n", line + b"?\n", 1)
    for value in (b"?", b"-?", b"5??", b"?5", b"-0?", b"05?", b"0?", b"-5?", b"2000001?"):
        yield f"net written {value!r}", whole.replace(b"net=95000", b"net=" + value, 1)
        yield f"net of a unit that is OUT written {value!r}", whole.replace(b"status=OFFNS\nnet=0", b"status=OUT\nnet=" + value, 1)
    yield "one nclr", (CURVES + "\n" + snapshot(["id=L kind=nclr rrsok=1 net=10 lpc=0 rrs=3"])).encode()
    for _ in range(200):
        yield "damaged", damaged(whole, rng)


def damaged(text, rng):
    """The text with one to three bytes replaced."""
    text = bytearray(text)
    for _ in range(rng.randrange(1, 4)):
        text[rng.randrange(len(text))] = rng.choice(b"0123456789-=\nABz?")
    return bytes(text)


def curve_text(pairs):
    """A curve text with these means and spreads."""
    return ("voll=900000\nfloor=2000000\n" + "".join(f"mu={mean}\nsigma={spread}\n" for mean, spread in pairs)).encode()


# Every group with its own pair: the widest numbers, probabilities of 1 and of 0, and many between.
MIXED = curve_text([(-20000000, 20000000), (20000000, 1), (-20000000, 1), (0, 1)] + [(500000 * place - 3000000, 900000 + place) for place in range(20)])


def lengthened(text, length):
    """A text and ones that make it so long. No right text is longer than 700 bytes, so that a longer one is always refused: up to the limit for
    what stands in it, and above the limit for its length. That tells whether the byte above the limit was seen."""
    return text + b"1" * (length - len(text))


def page_whole(rng):
    """Inputs of `page`, each with a name."""
    yield "the mixed curves", MIXED
    yield "equal pairs", CURVES.encode()
    yield "the shortest text", b"voll=0\nfloor=0\n" + b"mu=0\nsigma=1\n" * 24
    yield "the longest text", b"voll=2000000\nfloor=20000000\n" + b"mu=-20000000\nsigma=20000000\n" * 24
    for number in range(20):
        yield f"pairs at random {number}", curve_text([(rng.randrange(-3000000, 6000000), rng.randrange(1, 3000000)) for _ in range(24)])
    for cut in range(len(MIXED)):
        yield f"cut at byte {cut}", MIXED[:cut]
    for length in (PAGE_LIMIT - 1, PAGE_LIMIT, PAGE_LIMIT + 1, PAGE_LIMIT + 2, 2 * PAGE_LIMIT, LIMIT + 1, 3 * LIMIT):
        yield f"a right text and more, {length} bytes in all", lengthened(MIXED, length)
        yield f"a number that never ends, {length} bytes", lengthened(b"voll=", length)
        yield f"{length} empty lines", b"\n" * length
    for length in (PAGE_LIMIT, PAGE_LIMIT + 1):
        yield f"a number's line of {length} bytes", lengthened(b"voll=", length - 1) + b"\n"
    for old, new in ((b"voll=900000", b"voll=2000001"), (b"voll=900000", b"voll=-1"), (b"floor=2000000", b"floor="), (b"floor=2000000", b"floor=20000001"), (b"mu=-20000000", b"mu=-20000001"), (b"mu=0\nsigma=1\n", b"mu=0\nsigma=0\n"), (b"mu=0", b"mu=-0"), (b"sigma=20000000", b"sigma=20000001"), (b"sigma=900019", b"sigma=+1"), (b"sigma=900019", b"mu=1"), (b"voll=900000", b"voll=900000?"), (b"sigma=900019", b"sigma=900019?")):
        yield f"{old!r} as {new!r}", MIXED.replace(old, new, 1)
    yield "an empty line after the text", MIXED + b"\n"
    yield "an empty line before the text", b"\n" + MIXED
    yield "an empty line in the text", MIXED.replace(b"mu=0\n", b"\nmu=0\n", 1)
    yield "the text twice", MIXED * 2
    yield "an input of `price`", LISTING
    yield "lines that end in bytes 13 and 10", MIXED.replace(b"\n", b"\r\n")
    for _ in range(200):
        yield "damaged", damaged(MIXED, rng)


def cut_at_random(data, most, rng):
    """The input in parts of 1 to `most` bytes."""
    parts, at = [], 0
    while at < len(data):
        size = rng.randrange(1, most + 1)
        parts.append(data[at : at + size])
        at += size
    return parts


def cut_every(data, size):
    return [data[at : at + size] for at in range(0, len(data), size)]


def curves_in_parts(rng):
    """Inputs of `curves` in parts, each with a name."""
    short, long = history(2, 1, rng), history(4, 12, rng)  # 96 hours have some 140,000 bytes, three reads
    yield "48 short hours, a byte at a time", cut_every(short, 1)
    yield "48 short hours and an empty line, two bytes at a time", cut_every(short + b"\n", 2)
    for size in (1000, LIMIT - 1, LIMIT, LIMIT + 1):
        yield f"96 hours, {size} bytes at a time", cut_every(long, size)
    for most in (7, 300, 5000, 100000):
        yield f"96 hours, 1 to {most} bytes at a time", cut_at_random(long, most, rng)
    for place in ("inside a key", "before an empty line", "after an empty line"):
        mark, shift = {"inside a key": (b"runs=", 2), "before an empty line": (b"\n\n", 1), "after an empty line": (b"\n\n", 2)}[place]
        half = long.index(mark, len(long) // 2) + shift
        yield f"96 hours in two parts, cut {place}", [long[:half], long[half:]]
    at = long.index(b"runs=12", len(long) - 5000)
    yield "refused in the last part", [long[:LIMIT], long[LIMIT:at] + b"runs=61", long[at + 7 :]]
    yield "refused in the first part", [b"voll=900000\nfloor=-1\n", long]
    yield "the voll line in parts", [b"vo", b"ll=", b"9", b"00\n", b"flo", b"or=7\n" + long[long.index(b"month") :]]
    yield "a voll line that never ends, in parts", [b"voll="] + [b"1" * 30000] * 6
    yield "bytes after the last hour", [long, b"\n", b"\n"]


def price_in_parts(rng):
    """Inputs of `price` in parts, each with a name."""
    yield "the listing, a byte at a time", cut_every(LISTING, 1)
    yield "the listing, refused, a byte at a time", cut_every(LISTING.replace(b"hsl=2000000", b"hsl="), 1)
    for length in (LIMIT - 1, LIMIT, LIMIT + 1):
        text = longest(length)
        yield f"{length} bytes, all but the last at once", [text[:-1], text[-1:]]
        yield f"{length} bytes, 4096 at a time", cut_every(text, 4096)
        for most in (300, 20000):
            yield f"{length} bytes, 1 to {most} at a time", cut_at_random(text, most, rng)
    half = LISTING.index(b"\n\n") + 1
    yield "cut before the empty line", [LISTING[:half], LISTING[half:]]
    yield "cut after the empty line", [LISTING[: half + 1], LISTING[half + 1 :]]


def page_in_parts(rng):
    """Inputs of `page` in parts, each with a name."""
    yield "the mixed curves, a byte at a time", cut_every(MIXED, 1)
    yield "the mixed curves, refused, a byte at a time", cut_every(MIXED.replace(b"sigma=900019", b"sigma="), 1)
    for place in ("inside a key", "before a byte 10", "after a byte 10"):
        half = MIXED.index(b"\nmu=", len(MIXED) // 2) + {"inside a key": 2, "before a byte 10": 0, "after a byte 10": 1}[place]
        yield f"the mixed curves in two parts, cut {place}", [MIXED[:half], MIXED[half:]]
    yield "all but the last byte at once", [MIXED[:-1], MIXED[-1:]]
    yield "an empty line by itself", [MIXED, b"\n"]
    for length in (PAGE_LIMIT - 1, PAGE_LIMIT, PAGE_LIMIT + 1):
        text = lengthened(MIXED, length)
        yield f"{length} bytes, all but the last at once", [text[:-1], text[-1:]]
        yield f"{length} bytes, 512 at a time", cut_every(text, 512)
        for most in (30, 1000):
            yield f"{length} bytes, 1 to {most} at a time", cut_at_random(text, most, rng)
    yield "many more bytes, 1000 at a time", cut_every(lengthened(MIXED, LIMIT), 1000)


def curves_failing(rng):
    """Inputs of `curves` after which a read fails, each with a name and whether the program gets to that read."""
    long = history(12, 4, rng)  # half of it settles too
    yield "no bytes", b"", True
    yield "all hours", long, True
    yield "all hours and an empty line", long + b"\n", True
    yield "half of the hours", long[: long.index(b"\n\n", len(long) // 2) + 2], True
    yield "a cut line", long[: LIMIT + 5], True
    yield "one full read", long[:LIMIT], True
    yield "the settle lines", long[: long.index(b"month")], True
    yield "refused before the read that fails", b"voll=900000\nfloor=-1\n", False


def price_failing(rng):
    """Inputs of `price` after which a read fails, each with a name and whether the program gets to that read."""
    yield "no bytes", b"", True
    yield "the listing", LISTING, True
    yield "the curve text", CURVES.encode(), True
    yield "all but the last unit", LISTING[: LISTING.index(b"id=C")], True
    yield "all but the last byte", LISTING[:-1], True
    yield "65536 bytes", longest(LIMIT), True
    yield "too long before the read that fails", longest(LIMIT + 1), False


def page_failing(rng):
    """Inputs of `page` after which a read fails, each with a name and whether the program gets to that read."""
    yield "no bytes", b"", True
    yield "the mixed curves", MIXED, True
    yield "half of the lines", MIXED[: MIXED.index(b"mu=", len(MIXED) // 2)], True
    yield "all but the last byte", MIXED[:-1], True
    yield "a text that is refused", MIXED.replace(b"voll=", b"x", 1), True
    yield "4096 bytes", lengthened(MIXED, PAGE_LIMIT), True
    yield "too long before the read that fails", lengthened(MIXED, PAGE_LIMIT + 1), False


WHOLE = {"curves": curves_whole, "price": price_whole, "page": page_whole}
IN_PARTS = {"curves": curves_in_parts, "price": price_in_parts, "page": page_in_parts}
FAILING = {"curves": curves_failing, "price": price_failing, "page": page_failing}
