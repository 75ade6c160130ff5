"""Functions of include/crr.h from Python, on a packed case; what is refused is an exception."""

import sys

import crr

grid_file, book = (open(f"{sys.argv[1]}/{name}.bin", "rb").read() for name in ("grid", "book"))
grid = crr.read_grid(grid_file)
print(grid.nodes, grid.constraints, crr.released_percent(crr.ANNUAL))
print(crr.test_book(grid, book, crr.MONTHLY, crr.ON_PEAK).passed)
print(crr.find_exposure(grid, book, crr.ANNUAL, crr.ON_PEAK).most)
print(crr.find_flows(grid, book, crr.ON_PEAK).flows[:2])
print(crr.read_holder_view(grid.nodes, crr.write_holder_view(grid.nodes, book, 2))[0])
print(crr.month_hours(2024, 1), crr.weekday(2024, 1, 31), crr.month_later(2024, 1, 31))
print(list(crr.share_balance(-100, [1, 1, 1])))
try:
    crr.read_grid(b"")
except crr.Refused as refused:
    print(refused)
