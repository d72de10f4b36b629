#!/usr/bin/env python3
"""terrain.py N: writes an N by N terrain as OFF to standard output.

A smooth hill with two ridges, on the 16-bit grid; the same at each run."""
import math
import sys

n = int(sys.argv[1])
step = min(2000, 60000 // (n - 1))
print("OFF")
print(n * n, 2 * (n - 1) ** 2, 0)
for i in range(n):
    for j in range(n):
        x, y = (2 * j - n + 1) * step // 2, (2 * i - n + 1) * step // 2
        u, v = j / (n - 1), i / (n - 1)
        z = 6000 * math.sin(math.pi * u) * math.sin(math.pi * v) + 1500 * math.cos(9 * u + 4 * v)
        print(x, y, round(z))
for i in range(n - 1):
    for j in range(n - 1):
        a = i * n + j
        print(3, a, a + 1, a + n)
        print(3, a + 1, a + n + 1, a + n)
