"""random_texts.py: prints random texts for the driver, always the same: lines CLASS, TEXT, BYTES, separated by tabs.

rmix has the kinds of the class mix (60 short, 20 whole, 8 of 34 digits, 6 with an exponent, 2 special, 4 refused of 100), but 2,000
of them, with random digits and lengths, so that no branch predictor learns them by heart. rlong and rshort are one kind each.
BYTES are the 16 stored bytes as hexadecimal digits, or `-` for a refused text.
"""
import random
import re

SPECIAL = {"NaN": "7c", "Infinity": "78", "-inf": "f8", "-Infinity": "f8"}  # the highest byte; all others are 0


def digits(n, first="123456789"):
    return "".join(random.choice(first if i == 0 else "0123456789") for i in range(n))


def short():
    before, behind = random.choice([1, 1, 1, 2, 2, 3, 4]), random.choice([1, 2, 2, 3])
    whole = random.choice(["0", digits(before), digits(before), digits(before)])
    return whole + "." + digits(behind, "0123456789")


def integer():
    text = digits(random.choice([1, 1, 2, 3, 4, 5, 10, 12]))
    return random.choice(["", "", "", "-"]) + text


def long():
    text, point = digits(34), random.choice([0, 0, 0, 1, 17, -1])
    return text if point == 0 else "0." + text if point < 0 else text[:point] + "." + text[point:]


def power():
    text = digits(random.choice([1, 2, 9, 10]))
    text = text if len(text) == 1 else text[0] + "." + text[1:]
    return random.choice(["", "-"]) + text + random.choice("eE") + random.choice(["", "+", "-"]) + str(random.choice([3, 7, 10, 19, 23, 6000]))


def special():
    return random.choice(list(SPECIAL))


def refused():
    return random.choice(["1e", "abc", "1.2.3", "12,5", "1e+", "x1"])


def mixed():
    return random.choice([short] * 60 + [integer] * 20 + [long] * 8 + [power] * 6 + [special] * 2 + [refused] * 4)()


def stored(text):
    if text in SPECIAL:
        return "00" * 15 + SPECIAL[text]
    parts = re.fullmatch(r"(-?)(\d+)(?:\.(\d+))?(?:[eE]([+-]?\d+))?", text)
    if not parts:
        return "-"
    sign, whole, behind, written = parts.groups(default="")
    exponent = int(written or 0) - len(behind)
    return ((sign == "-") << 127 | exponent + 6176 << 113 | int(whole + behind)).to_bytes(16, "little").hex()


random.seed(7)
for name, many, maker in [("rmix", 2000, mixed), ("rlong", 400, long), ("rshort", 700, short)]:
    for _ in range(many):
        text = maker()
        print(name, text, stored(text), sep="\t")
