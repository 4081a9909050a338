"""Prints a script whose rules each open a chain of seals, one in a pass: chain.py KEYS RULES.

Every rule receives all seals at once, nested in pairs; each seal holds the key of the next, and rows
are read from the last down, so a pass opens one of them."""

import sys

keys, rules = int(sys.argv[1]), int(sys.argv[2])
lines = ["name 10 1"] + [f"name {100 + k} 3:10:10" for k in range(keys)]
lines += [f"row name {100 + k}" for k in range(keys)]
lines += [f"row seal {k + 2} {k + 1}" for k in range(keys - 1)]
received = 1
for k in range(keys - 1):
    lines.append(f"row pair {keys + k + 1} {received}")
    received = 2 * keys + k
for rule in range(rules):
    if rule % 16 == 0:
        lines.append("role *")
    lines += ["rule", f"left N {received}", f"right N {keys}"]
print("\n".join(lines + ["check"]))
