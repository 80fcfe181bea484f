"""Texts and stored values for the differential runs, as lines of hex, and streams of lines as they are. Everything follows
from the seed.

    generate.py texts|values|stream COUNT SEED

The first part is exhaustive and the same for every seed; the rest, up to COUNT, is drawn at random around the boundaries of
document 01. Of a stream COUNT counts pieces, some shorter than a line and some longer.
"""
import itertools
import random
import sys

NASTY = b"019.-+eExn"
EDGES = [6144, 6145, 6111, 6112, 6110, 6143, 6176, 6177, 6175, 6178, 6210, 6209, 6211, 34, 33, 35, 0, 1]
WIDE = [2**31, 2**32, 2**63, 2**64, 2**127, 2**128, 10**38, 10**39, 10**40]
WORDS = [b"nan", b"snan", b"inf", b"infinity", b"infinit", b"infinite", b"nane", b"sna", b"NaN", b"Infinity", b"SNaN", b"e", b"E"]


def exhaustive():
    """Every text of up to six bytes over the nasty alphabet."""
    for length in range(7):
        for text in itertools.product(NASTY, repeat=length):
            yield bytes(text)


def exponent(r):
    kind = r.randrange(6)
    if kind < 3:
        n = r.choice(EDGES) + r.randrange(-3, 4)
    elif kind == 3:
        n = r.choice(WIDE) + r.randrange(-2, 3)
    elif kind == 4:
        n = r.randrange(0, 7000)
    else:
        n = r.randrange(0, 10 ** r.randrange(1, 45))
    zeros = b"0" * r.choice([0, 0, 0, 1, 40])
    return r.choice([b"", b"+", b"-", b"-"]) + zeros + str(abs(n)).encode()


def digits(r):
    kind = r.randrange(8)
    length = r.choice([1, 2, 3, 17, 18, 19, 20, 33, 34, 35, 36, 40, r.randrange(1, 80)])
    if r.randrange(2000) == 0:
        length = r.randrange(1000, 9000)
    if kind == 0:
        body = b"0" * length
    elif kind == 1:
        body = b"9" * length
    elif kind == 2:
        body = b"1" + b"0" * length
    elif kind == 3:
        body = b"0" * r.randrange(40) + b"1" + b"0" * r.randrange(40) + r.choice([b"", b"1"])
    else:
        body = bytes(r.choice(b"0123456789") for _ in range(length))
    if r.randrange(3) == 0:
        body = b"0" * r.choice([1, 2, 34, 35]) + body
    if r.randrange(3) == 0:
        body += b"0" * r.choice([1, 2, 33, 34, 35])
    return body


def well_formed(r):
    body = digits(r)
    for _ in range(r.choice([0, 0, 0, 1, 1, 1, 1, 2, 3])):
        at = r.randrange(len(body) + 1)
        body = body[:at] + b"." + body[at:]
    text = r.choice([b"", b"", b"-", b"+"]) + body
    if r.randrange(3):
        text += r.choice(b"eE").to_bytes(1, "big") + exponent(r)
    return text


def damaged(r, text):
    text = bytearray(text)
    for _ in range(r.choice([1, 1, 2])):
        at = r.randrange(len(text) + 1)
        kind = r.randrange(4)
        if kind == 0 and at < len(text):
            del text[at]
        elif kind == 1:
            text.insert(at, r.choice(b" .eE+-0nif\n\r\x00/:@[`{\x7f"))
        elif kind == 2 and at < len(text):
            text[at] = r.randrange(256)
        else:
            text[at:at] = text[max(0, at - 3) : at]
    return bytes(text)


def cased(r, word):
    return bytes(b ^ 32 if 97 <= b <= 122 and r.randrange(2) else b for b in word)


def texts(seed):
    yield from exhaustive()
    r = random.Random(seed)
    while True:
        kind = r.randrange(20)
        if kind < 13:
            yield well_formed(r)
        elif kind < 18:
            yield damaged(r, well_formed(r))
        elif kind == 18:
            yield r.choice([b"", b"-", b"+"]) + cased(r, r.choice(WORDS)) + r.choice([b"", b"", b"", b"1", b" "])
        else:
            yield "".join(r.choice("1e.-0٣éߓ\u0085\u2003x") for _ in range(r.randrange(1, 8))).encode()


def values(seed):
    # every pattern of the top 17 bits, over coefficients at the ends
    low = 2**111 - 1
    for top in range(2**17):
        for rest in (0, 1, low):
            yield (top << 111 | rest).to_bytes(16, "little")
    r = random.Random(seed)
    limits = [10**34 - 1, 10**34, 2**113 - 1, 10**33, 2**110, 2**64, 2**96, 0]
    while True:
        kind = r.randrange(4)
        if kind == 0:
            n = r.getrandbits(128)
        else:
            exponent = r.choice([6176, 6176 + r.randrange(-45, 5), r.randrange(12288), 0, 12287])
            if kind == 1:
                c = r.choice(limits) + r.randrange(-3, 4)
            elif kind == 2:
                c = 10 ** r.randrange(35) + r.randrange(-2, 3)
            else:
                c = r.randrange(10 ** r.randrange(1, 35))
            n = r.getrandbits(1) << 127 | exponent << 113 | max(0, min(c, 2**113 - 1))
        yield n.to_bytes(16, "little")


def stream(seed):
    # CR and LF wherever they fall, and now and then a line about as long as the limit
    r = random.Random(seed)
    while True:
        if r.randrange(500):
            yield bytes(r.choice(b"\r\r\n\n01e.-") for _ in range(r.randrange(1, 12)))
        else:
            yield b"0" * r.randrange(4093, 4099)


def main():
    kind, count, seed = sys.argv[1], int(sys.argv[2]), int(sys.argv[3])
    source = {"texts": texts, "values": values, "stream": stream}[kind](seed)
    out = sys.stdout.buffer
    for item in itertools.islice(source, count):
        out.write(item if kind == "stream" else item.hex().encode() + b"\n")


if __name__ == "__main__":
    main()
