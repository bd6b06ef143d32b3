"""Reads grouped pieces back, written from the section "Grouped pieces" of the format's description alone.
`python3 grouped_pieces.py FORMAT.md` compares the section's example with it, both ways."""

import sys


def number(data):
    return int.from_bytes(data, "big")

def ungrouped(data):
    w = len(data) // 4
    c = []
    for i in range(w):
        d = number(bytes(data[k * w + i] for k in range(4)))
        c.append(((c[-1] if c else 0) + d) % 2 ** 32)
    return b"".join(x.to_bytes(4, "big") for x in c) + data[4 * w:]

def grouped(data):
    w = len(data) // 4
    c = [number(data[4 * i:4 * i + 4]) for i in range(w)]
    d = [((c[i] - c[i - 1]) % 2 ** 32 if i else c[0]).to_bytes(4, "big") for i in range(w)]
    return bytes(d[i][k] for k in range(4) for i in range(w)) + data[4 * w:]

def main(path):
    with open(path, encoding="utf-8") as file:
        lines = [line.split()[1:] for line in file if line.startswith("    grouped ")]
    for plain, stored in (map(bytes.fromhex, line) for line in lines):
        if ungrouped(stored) != plain or grouped(plain) != stored:
            return f"the example of {len(plain)} bytes differs"
    return f"{len(lines)} grouped example agrees"

if __name__ == "__main__":
    answer = main(sys.argv[1])
    print(answer)
    sys.exit(0 if answer == "1 grouped example agrees" else 1)
