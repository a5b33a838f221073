"""SciPy's linear_sum_assignment as a contender of the benchmark. A line `matrix N` is followed by N lines of costs, `inf` where
forbidden; a line `turn K` solves matrix K once, counted from 0, and is answered with the nanoseconds and the total."""
import sys
import time

import numpy
from scipy.optimize import linear_sum_assignment

matrices = []
print("ready", flush=True)
for line in sys.stdin:
    word, number = line.split()
    if word == "matrix":
        rows = [[float(cost) for cost in sys.stdin.readline().split()] for _ in range(int(number))]
        matrices.append(numpy.array(rows))
        continue
    matrix = matrices[int(number)]
    start = time.perf_counter_ns()
    pairing = linear_sum_assignment(matrix)
    taken = time.perf_counter_ns() - start
    print(taken, int(matrix[pairing].sum()), flush=True)
