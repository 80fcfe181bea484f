"""The place that an answer carries, in the words of ticket 2 of document 02: a byte offset in the text, its sign counted.

    places.py texts|stream INPUT <RECORDS

Neither the Rust nor MongoDB's cases give a place. It is found here, from the text and the number that it is answered with.
As a command it gives the Rust's records back, each with its place as the fourth field. INPUT is what the Rust was given:
a text a line, in hex (texts), or lines as they are (stream).
"""
import itertools
import sys

sys.set_int_max_str_digits(0)  # an exponent may have any number of digits


def decimal_part(text):
    """Its start and its end: from after the one optional sign to the first `e`, or to the text's end."""
    start = 1 if text[:1] in (b"-", b"+") else 0
    e = text.lower().find(b"e")
    return start, len(text) if e < 0 else e


def the_e(text):
    return decimal_part(text)[1]


def after_the_e(text):
    """The byte after the `e`, or the text's length when there is none."""
    _, end = decimal_part(text)
    return end + 1 if end < len(text) else end


def second_point(text):
    return text.index(b".", text.index(b".") + 1)


def first_wrong_byte(text):
    """The first wrong byte of the decimal part, or its end if only a digit is missing."""
    start, end = decimal_part(text)
    return next((i for i in range(start, end) if text[i] not in b"0123456789."), end)


def first_byte_cut(text):
    """The first byte other than `0` among those cut in the refusing step, which is step 8 or 9 of document 01's reading."""

    def is_zero(i):
        return text[i] == ord("0")

    start, end = decimal_part(text)
    point = text.find(b".", start, end)
    after_point = end - point - 1 if point >= 0 else 0
    x = int(text[end + 1 :] or b"0") - after_point
    # the run, as the offsets of its bytes in the text
    run = list(itertools.dropwhile(is_zero, (i for i in range(start, end) if i != point)))
    kept, cut = run[:34], run[34:]
    if all(map(is_zero, cut)):
        # step 8 took it, so step 9 refused
        d = -6176 - (x + len(cut))
        cut = kept[-d:]
    return next(itertools.filterfalse(is_zero, cut))


PLACE = {
    1: the_e,  # EmptyExponent
    2: after_the_e,  # InvalidExponent
    3: second_point,  # InvalidCoefficient
    4: after_the_e,  # Overflow
    5: after_the_e,  # Underflow
    6: first_byte_cut,  # InexactRounding
    7: first_wrong_byte,  # Unparseable
}


def place(text, number):
    """The place of a text that is answered with the number."""
    return PLACE[number](text) if number else 0


def with_place(text, record):
    """The Rust's record of a text with the place behind it. Where the Rust gave no answer (`?` or `!`) there is none."""
    number = record.split("\t", 1)[0]
    if not number.isdigit():
        return record
    return f"{record}\t{'-' if number == '10' else place(text, int(number))}"


def texts_of(stream):
    """LF ends a line; one CR before it, or as the stream's last byte, belongs to its end. The rest is text."""
    lines = stream.split(b"\n")
    if not lines[-1]:
        lines.pop()  # nothing stands after the last LF
    return [line.removesuffix(b"\r") for line in lines]


def main():
    if len(sys.argv) != 3 or sys.argv[1] not in ("texts", "stream"):
        sys.exit(__doc__)
    kind, given = sys.argv[1:]
    with open(given, "rb") as f:
        texts = (bytes.fromhex(line.decode()) for line in f) if kind == "texts" else texts_of(f.read())
        for text, record in zip(texts, sys.stdin, strict=True):
            print(with_place(text, record.rstrip("\n")))


if __name__ == "__main__":
    main()
