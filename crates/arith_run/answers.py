#!/usr/bin/env python3
"""Prints what arith_run has to write, from Python's integers, which have no largest: `answers.py > stdout`."""

VALUES = [0, 1, 2**32 - 1, 2**32, 2**63, 2**64 - 1]
OPERATIONS = {
    "add": lambda x, y: x + y,
    "sub": lambda x, y: max(x - y, 0),
    "mul": lambda x, y: x * y,
    "div": lambda x, y: x // y if y else 0,
    "mod": lambda x, y: x % y if y else x,
    "beq": lambda x, y: x == y,
    "ble": lambda x, y: x <= y,
}

def shown(result):
    if isinstance(result, bool):
        return "true" if result else "false"
    return "refused 7" if result > 2**64 - 1 else str(result)

for name, operation in OPERATIONS.items():
    for x in VALUES:
        for y in VALUES:
            print(name, x, y, "=", shown(operation(x, y)))
