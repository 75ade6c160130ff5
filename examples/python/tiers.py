"""A running test on a packed case's grid: an award is tried and taken back."""

import sys

import crr

with open(f"{sys.argv[1]}/grid.bin", "rb") as file:
    grid = crr.read_grid(file.read())
run = crr.RunningTest(grid, process=crr.ANNUAL, period=crr.ON_PEAK)
run.mark(1)
run.add((crr.OBLIGATION, crr.ON_PEAK, 3, 7, 8, 20_000))  # of holder 3, from node 7 to node 8
print(len(run.held), run.counted, max(run.flows))
run.return_to(1)
print(len(run.held), run.marks)
