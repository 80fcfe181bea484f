"""Reads lines THEIRS TAB OURS TAB INPUT, where the two answers have as many fields, and says where they differ."""
import sys

shortest = None
count = 0
for line in sys.stdin:
    fields = line.rstrip("\n").split("\t")
    if fields[0] == "?":
        continue
    half = (len(fields) - 1) // 2
    if fields[:half] != fields[half:-1]:
        count += 1
        if shortest is None or len(fields[-1]) < len(shortest[-1]):
            shortest = fields
if shortest:
    half = (len(shortest) - 1) // 2
    print(f"{count} answers differ. The shortest input, in hex and as text: {shortest[-1]} {bytes.fromhex(shortest[-1])!r}")
    print("expected:", "\t".join(shortest[:half]))
    print("ours:    ", "\t".join(shortest[half:-1]))
    sys.exit(1)
