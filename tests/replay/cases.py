"""The cases that are written by hand, from document 01 and tickets 1 and 2 of document 02: the example, what a stream of
lines can hold, and the places of refusals.

A case is a line as it stands in the stream, its end included, and its record.
"""

_ZERO = b"0\t00000000000000000000000000004030\t0\t0\n"
_ONE = b"0\t01000000000000000000000000004030\t1\t0\n"
_TWO = b"0\t02000000000000000000000000004030\t2\t0\n"
_HALF = b"0\t05000000000000000000000000003e30\t0.5\t0\n"
_MINUS_INFINITY = b"0\t000000000000000000000000000000f8\t-Infinity\t0\n"
_MALFORMED = b"8\t-\t-\n"
_TOO_LONG = b"10\t-\t-\t-\n"


def _refused(number, place):
    """The record of a refusal, 1 to 7."""
    return b"%d\t-\t-\t%d\n" % (number, place)


def _refusals(*groups, end=b"\n"):
    """A line for each text of the groups, a group being texts that are refused with one number, each with its place."""
    return [(text + end, _refused(number, place)) for number, texts in groups for text, place in texts.items()]


_EXAMPLE = [(b"1\n", _ONE), (b"0.5\n", _HALF), (b"-inf\n", _MINUS_INFINITY), (b"1e\n", _refused(1, 1))]

_BYTES = [
    # an empty line in the middle
    (b"\n", _refused(7, 0)),
    # 4,096 bytes are read; 4,097 are 10, and the stream goes on
    (b"0" * 4096 + b"\n", _ZERO),
    (b"0" * 4097 + b"\n", _TOO_LONG),
    (b"x" * 4096 + b"\n", _refused(7, 0)),
    (b"0" * 70000 + b"\n", _TOO_LONG),
    (b"2\n", _TWO),
    # NUL, bytes above 127 and a space are text
    *_refusals((7, {b"\x001": 0, b"1\x00": 1, b"\xff": 0, b"1\x80": 1}), (2, {b"1e\xc3\xa9": 2}), (7, {b" 1": 0})),
]

_CARRIAGE_RETURNS = [(line[:-1] + b"\r\n", record) for line, record in _EXAMPLE] + [
    # an empty line
    (b"\r\n", _refused(7, 0)),
    # LF and CR LF mixed
    (b"1\n", _ONE),
    (b"2\r\n", _TWO),
    (b"0.5\n", _HALF),
    (b"1e\r\n", _refused(1, 1)),
    # in the middle, in front, in the exponent: text
    (b"1\r2\n", _refused(7, 1)),
    (b"1\r2\r\n", _refused(7, 1)),
    (b"\r1\n", _refused(7, 0)),
    (b"1e5\r0\r\n", _refused(2, 2)),
    # of two CRs the first is text
    *_refusals((7, {b"1\r": 1}), (2, {b"1e5\r": 2}), (7, {b"\r": 0}), end=b"\r\n"),
    # LF CR LF: a line, and an empty one
    (b"1\n", _ONE),
    (b"\r\n", _refused(7, 0)),
    # the limit counts the text alone
    (b"0" * 4095 + b"\r\n", _ZERO),
    (b"0" * 4096 + b"\r\n", _ZERO),
    (b"0" * 4097 + b"\r\n", _TOO_LONG),
    (b"0" * 4095 + b"\r\r\n", _refused(7, 4095)),
    (b"0" * 4096 + b"\r\r\n", _TOO_LONG),
    (b"0" * 4096 + b"\r0\n", _TOO_LONG),
    (b"0" * 70000 + b"\r\n", _TOO_LONG),
    (b"2\r\n", _TWO),
]

_FULL = b"1" + b"0" * 33  # a run of 34 bytes: all that step 8 keeps
_LOWEST = b"-170141183460469231731687303715884105728"  # the lowest exponent, -2^127

# without an `e`, 4 and step 9's 6 need a longer text than a line may have: tests/c/check.c has them
_PLACES = _refusals(
    # 1: the `e`
    (1, {
        b"e": 0, b"E": 0, b"-e": 1, b"+1.5E": 4, b"1.2.3e": 5, b"infinite": 7, b"-infinite": 8, b"+INFINITE": 8,
        b"0" * 4095 + b"e": 4095,
    }),
    # .. also where a byte before it is wrong
    (1, {b"xe": 1, b"--1E": 3}),
    # 7: the first wrong byte
    (7, {
        b"x": 0, b"-x": 1, b"1x2": 1, b"1x2e5": 1, b"-1x2E5": 2, b"12.5x.y": 4, b"1,5": 1, b"0x10": 1, b"1/2": 1,
        b"1:2": 1, b"-\xff": 1, b"1.5\xc3\xa9": 3, b"1\t2": 1, b"0" * 4095 + b"x": 4095,
    }),
    # .. a second sign
    (7, {b"+-1": 1, b"--1": 1, b"1-": 1, b"-1+2e5": 2}),
    # .. the first letter of a word that is no special one
    (7, {b"nanx": 0, b"-NaN1": 1, b"infinit": 0, b"+Infinit": 1, b"-infinity ": 1, b"snan1e5": 0, b"1nan": 1}),
    # .. also where no digit stands, or the exponent is wrong too
    (7, {b".x": 1, b"..x.e5": 2, b"x1e+": 0}),
    # 7: the decimal part's end, where only a digit is missing
    (7, {
        b"": 0, b"-": 1, b"+": 1, b".": 1, b"-.": 2, b"..": 2, b"e5": 0, b"-E5": 1, b".e5": 1, b"..e5": 2,
        b"+..E5": 3, b".e+": 1, b"." * 4096: 4096, b"-" + b"." * 4093 + b"E5": 4094,
    }),
    # 2: the byte after the `e`, whichever byte of the exponent is wrong
    (2, {
        b"1e+": 2, b"1E-": 2, b"-1e+": 3, b"+1.5E--5": 5, b"1ex": 2, b"1e5x": 2, b"1e5.0": 2, b"1E5 ": 2, b"1ee5": 2,
        b"-1E5e5": 3, b"1.2.3e+": 6, b"0e170141183460469231731687303715884105728": 2,
        b"-0E-170141183460469231731687303715884105729": 3, b"0" * 4094 + b"e+": 4095,
    }),
    # 3: the second point
    (3, {b"1.2.3": 3, b"-1.2.3": 4, b"1.2.3e5": 3, b"+1.2.3E5": 4, b"1..": 2, b"..1": 1, b"1.2.3.4.5": 3}),
    # .. after zeros
    (3, {b"0.0.": 3, b"-000.000.1": 8, b"0" * 4093 + b"..0": 4094}),
    # .. as the last byte that is kept: zeros are cut behind it
    (3, {b"1." + b"0" * 32 + b".": 34, b"1." + b"0" * 32 + b".000": 34, b"1.2.00e-6174": 3}),
    # .. with zeros appended up to 34 bytes
    (3, {b"1.2.3E6144": 3}),
    # 6 in step 8: of what stands beyond 34 bytes, the first that is not 0
    (6, {_FULL + b"1": 34, b"-" + _FULL + b"1": 35, _FULL + b"1e5": 34, b"+" + _FULL + b"1E-5": 35, b"9" * 40: 34}),
    # .. zeros are cut before it
    (6, {_FULL + b"0070": 36, _FULL + b"0" * 4061 + b"1": 4095}),
    # .. leading zeros are not of the run
    (6, {
        b"000" + _FULL + b"1": 37, b"0." + _FULL + b"1": 36, b"-00.00" + _FULL + b"01": 41,
        b"0" * 4061 + _FULL + b"1": 4095,
    }),
    # .. nor is the first point, before the cut, at it, or among what is cut
    (6, {b"1." + b"0" * 33 + b"1": 35, _FULL + b".5": 35, _FULL + b"0.05": 37, _FULL + b"5.0": 34}),
    # .. a second point is, and is not 0
    (6, {
        b"1." + b"0" * 33 + b".": 35, b"1." + b"0" * 33 + b"0.5": 36, b"-" + _FULL + b"..e5": 36,
        b".." + b"0" * 33 + b"12": 35,
    }),
    # .. and step 9 would have cut more
    (6, {b"12" + b"0" * 32 + b"1e-6210": 34}),
    # 6 in step 9: of what stands below 10^-6176, the first that is not 0
    (6, {b"1e-6177": 0, b"-1E-6177": 1, b"+12e-6177": 2, b"120E-6178": 1, b"123e-6179": 0}),
    # .. zeros are cut before it
    (6, {b"102e-6178": 2, b"1002E-6179": 3}),
    # .. leading zeros are not of the run
    (6, {b"0012e-6177": 3, b"-0.0012E-6173": 6, b"0" * 4089 + b"1e-6177": 4089}),
    # .. nor is the first point, before the cut, at it, or among what is cut
    (6, {b"1.23e-6175": 3, b"-1.5E-6176": 3, b"12.3e-6177": 1, b"10.2e-6177": 3}),
    # .. a second point is, and is not 0
    (6, {b"1.2.3E-6176": 2, b"1.0.0e-6175": 3, b"-1.2.E-6175": 4, b"..0e-6176": 1}),
    # .. after step 8 cut zeros
    (6, {b"12" + b"0" * 33 + b"e-6210": 1, b"-1." + _FULL + b"E-6176": 3}),
    # 4: the byte after the `e`
    (4, {
        b"1e6145": 2, b"-1E6145": 3, b"+1.0e+6146": 5, b"9" * 34 + b"E6112": 35, b"1e-6178": 2, b"-1E-6178": 3,
        b"0.1e-6177": 4, b"1E" + _LOWEST: 2, b"-1e170141183460469231731687303715884105727": 3, b"1.2.3E6145": 6,
        b"0" * 4090 + b"1e6145": 4092,
    }),
    # 5: the byte after the `e`
    (5, {
        b".0e" + _LOWEST: 3, b"0.0E" + _LOWEST: 4, b"-0.0e" + _LOWEST: 5, b"+1..E" + _LOWEST: 5,
        b"0" * 4053 + b".0e" + _LOWEST: 4056,
    }),
)

# the programs read blocks of 65,536 bytes; each line here is cut so that its first part ends with a block
_CUT = [
    (b"1\r", b"\n", _ONE),
    (b"1\r", b"2\n", _refused(7, 1)),
    (b"0" * 4096 + b"\r", b"\n", _ZERO),
    (b"0" * 4096 + b"\r", b"\r\n", _TOO_LONG),
]


def _at_block_ends(length):
    """The lines of _CUT, each behind a line of zeros that brings it to its place, in a stream that has `length` bytes so far."""
    for first, second, record in _CUT:
        filler = b"0" * (-(length + 1 + len(first)) % 65536) + b"\n"
        yield filler, (_ZERO if 1 < len(filler) <= 4097 else _TOO_LONG)
        yield first + second, record
        length += len(filler) + len(first) + len(second)


_WHOLE = _EXAMPLE + _BYTES + _CARRIAGE_RETURNS
_WHOLE += _at_block_ends(sum(len(line) for line, _ in _WHOLE))
_WHOLE += _PLACES
STDIN = b"".join(line for line, _ in _WHOLE)
STDOUT = b"".join(record for _, record in _WHOLE)

# no final LF: a last line of CR alone is an empty line
LAST = b"\r"
LAST_RECORD = _refused(7, 0)

# with CR LF throughout
NOT_STORED = [
    b"",
    b"0",
    b"0000000000000000000000000000403",
    b"000000000000000000000000000040300",
    b"0000000000000000000000000000403g",
    b"000000000000000000000000000040 0",
    b"0000000000000000000000000000403\r",
    b"00000000000000000000000000004030\r",
    b"0" * 64,
    b"0" * 5000,
]
NOT_STORED_RECORD = _MALFORMED
LAST_STORED = b"46000000000000000000000000003C30\r"
LAST_STORED_RECORD = b"0\t0.70\tDecimal128(46000000000000000000000000003c30)\n"

# whole streams, each with what it is answered: the ends that a stream can have
STREAMS = [
    (b"", b""),
    (b"\n", _refused(7, 0)),
    (b"1", _ONE),
    (b"1\n", _ONE),
    (b"1\r", _ONE),
    (b"1\r\n", _ONE),
    (b"\r", _refused(7, 0)),
    (b"\r\n", _refused(7, 0)),
    (b"\r\r", _refused(7, 0)),
    (b"\r\r\n", _refused(7, 0)),
    (b"\n\r", _refused(7, 0) + _refused(7, 0)),
    (b"1\n\r", _ONE + _refused(7, 0)),
    (b"1\r\n\r", _ONE + _refused(7, 0)),
    (b"1\r\n2", _ONE + _TWO),
    (b"1\r2", _refused(7, 1)),
    (b"1\r\r", _refused(7, 1)),
    (b"1\n0.5\n-inf\n1e\n", _ONE + _HALF + _MINUS_INFINITY + _refused(1, 1)),
    (b"1\r\n0.5\r\n-inf\r\n1e\r\n", _ONE + _HALF + _MINUS_INFINITY + _refused(1, 1)),
    (b"1\r\n2\n0.5\r\n1e\r", _ONE + _TWO + _HALF + _refused(1, 1)),
    (b"0" * 4096, _ZERO),
    (b"0" * 4096 + b"\r", _ZERO),
    (b"0" * 4096 + b"\r\n", _ZERO),
    (b"0" * 4096 + b"\r\r", _TOO_LONG),
    (b"0" * 4096 + b"\r\r\n", _TOO_LONG),
    (b"0" * 4097, _TOO_LONG),
    (b"0" * 4097 + b"\r", _TOO_LONG),
    (b"0" * 4097 + b"\r\n1", _TOO_LONG + _ONE),
]
