"""table.py TABLE FILE: what the driver measured, as a table in Markdown.

instructions, digits: FILE has lines PEER, OPERATION, CLASS, INSTRUCTIONS, separated by tabs. The classes of `digits` are how many
digits a text has, and all is reading.
nanoseconds, ratios: FILE has lines ORDER, PEER, OPERATION, CLASS, NANOSECONDS, one for each run of each link order. The figure is the
median over the runs of an order, and the mean of the orders. `ratios` shows this library's figure divided by each peer's.
Operations that this library does not have are not shown.
"""
import statistics
import sys

PEERS = {"ours": "this library", "before": "this library before", "rust": "the Rust", "rust_to_string": "the Rust, `to_string`", "libbson": "libbson", "libbson_strlen": "libbson with `strlen`", "intel": "Intel's library", "gcc": "gcc"}
OPERATIONS = ["read", "write", "less", "to_dpd", "from_dpd", "to_double"]


def counted(lines):
    return {(operation, peer, kind): float(number) for peer, operation, kind, number in lines}


def timed(lines):
    runs = {}
    for order, peer, operation, kind, number in lines:
        runs.setdefault((operation, peer, kind), {}).setdefault(order, []).append(float(number))
    return {key: statistics.mean(map(statistics.median, orders.values())) for key, orders in runs.items()}


def ratios(lines):
    figures = timed(lines)
    return {(operation, peer, kind): figures[operation, "ours", kind] / number
            for (operation, peer, kind), number in figures.items() if (operation, "ours", kind) in figures}


# the figures, how they are written, and the name of a row
TABLES = {
    "instructions": (counted, ".0f", "{operation}, {peer}"),
    "nanoseconds": (timed, ".1f", "{operation}, {peer}"),
    "ratios": (ratios, ".2f", "{operation}, this library / {peer}"),
    "digits": (counted, ",.0f", "{peer}"),
}

table, file = sys.argv[1:]
figures_of, form, row_name = TABLES[table]
figures = figures_of(line.rstrip("\n").split("\t") for line in open(file))
rows = {(operation, peer) for operation, peer, _ in figures}
kinds = list(dict.fromkeys(kind for _, _, kind in figures))
print("| " + " | ".join([table, *kinds]) + " |")
print("|---" + "|---:" * len(kinds) + "|")
for operation in OPERATIONS:
    for peer, peer_name in PEERS.items():
        shown = (operation, "ours") in rows and (operation, peer) in rows
        if not shown or (table, peer) == ("ratios", "ours"):
            continue
        cells = [format(figures[operation, peer, kind], form) if (operation, peer, kind) in figures else "" for kind in kinds]
        print("| " + " | ".join([row_name.format(operation=operation, peer=peer_name), *cells]) + " |")
