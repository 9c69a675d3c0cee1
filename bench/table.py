"""Prints what the benchmarks measured as Markdown: a call to a line, a peer to a column, in brackets the peer's number over ours."""
import sys

OURS = "Mundreff"
COLUMNS = [(0, "Instructions"), (1, "Divisions"), (2, "Memory accesses"), (3, "Cycles"), (4, "Nanoseconds")]


def read(path):
    rows, peers, notes = {}, [], []
    with open(path, encoding="ascii") as lines:
        for line in lines:
            peer, call, *rest = line.rstrip("\n").split("\t")
            if len(rest) == 1:
                note = f"{peer}, {call}: {rest[0]}."
                notes += [] if note in notes else [note]
                continue
            if peer not in peers:
                peers.append(peer)
            # two runs tell of a call where one takes its time and another counts it
            one = rows.setdefault(call, {}).get(peer, [0.0] * len(rest))
            rows[call][peer] = [float(x) or known for x, known in zip(rest, one)]
    return rows, peers, notes


def cell(row, peer, at):
    if peer not in row:
        return "-"
    number = f"{row[peer][at]:,.0f}"
    if peer == OURS or OURS not in row or not row[OURS][at]:
        return number
    return f"{number} ({row[peer][at] / row[OURS][at]:.2f})"


def table(rows, peers, at, title):
    if not any(values[at] for row in rows.values() for values in row.values()):
        return
    print(f"\n{title} per call (in brackets over ours: above 1, ours takes fewer):\n")
    print("| Call | " + " | ".join(peers) + " |")
    print("|---" + "|---:" * len(peers) + "|")
    for call, row in rows.items():
        print(f"| {call} | " + " | ".join(cell(row, peer, at) for peer in peers) + " |")


rows, peers, notes = read(sys.argv[1])
for at, title in COLUMNS:
    table(rows, peers, at, title)
if notes:
    print()
for note in notes:
    print(note)
