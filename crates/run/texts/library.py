#!/usr/bin/env python3
"""Prints a text that is too long to be kept: 65,536 library rows, the maximum, and then one more.

    python3 library.py > FILE

By the document's words the first call's answer is its own term, `term 65535 0 steps 0 rows 0 mark 0`, and the second's is `refused 1 at 0`."""
ROW = "1 0 0 0 0 0 0 0 1"
for i in range(65535 // 5): print("lib " + "  ".join([ROW] * 5))
print("lib 3 0 0 65534 0 0 0 0 2\nwhnf 65535 0")
print("lib " + ROW + "\nwhnf 0 0")
