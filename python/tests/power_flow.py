"""MATPOWER case files by numpy alone, with nothing of the package: their tables, and the AC power flow by
Newton's method, whose solution depends on every load, generation, impedance and tap of a case."""

import re

try:
    import numpy
except ImportError:
    numpy = None

SLACK, HELD = 3, 2  # types of a bus: the slack, and one whose voltage a generator holds


def table(path, name):
    """A table's rows."""
    text = re.sub("%.*", "", path.read_text())
    rows = re.search(rf"mpc\.{name} = \[(.*?)\]", text, re.S)[1].split("\n")
    cells = [re.split(r"[\s,;]+", row.strip(" \t;")) for row in rows if row.strip()]
    return numpy.array([[float(cell) for cell in row] for row in cells])


def places(buses, numbers):
    """The rows of buses by their numbers."""
    return numpy.searchsorted(buses[:, 0], numbers)


def admittances(buses, branches, base=100):
    """Y_bus: lines as pi sections with half of their charging at each end, taps at the from bus."""
    tap = numpy.where(branches[:, 8] == 0, 1, branches[:, 8])
    series, charging = 1 / (branches[:, 2] + 1j * branches[:, 3]), 0.5j * branches[:, 4]
    start, end = (places(buses, branches[:, at]) for at in (0, 1))
    out = numpy.diag((buses[:, 4] + 1j * buses[:, 5]) / base)
    numpy.add.at(out, (start, start), (series + charging) / tap**2)
    numpy.add.at(out, (end, end), series + charging)
    numpy.add.at(out, (start, end), -series / tap)
    numpy.add.at(out, (end, start), -series / tap)
    return out


def jacobian(admittance, volts, angled, free):
    """What the injections change by with the angles of some buses and the magnitudes of others."""
    diagonal, currents, units = numpy.diag, admittance @ volts, volts / abs(volts)
    by_angle = 1j * diagonal(volts) @ (diagonal(currents) - admittance @ diagonal(volts)).conj()
    by_magnitude = diagonal(volts) @ (admittance @ diagonal(units)).conj() + diagonal(currents.conj() * units)
    real = numpy.hstack((by_angle[:, angled], by_magnitude[:, free])).real[angled]
    imaginary = numpy.hstack((by_angle[:, angled], by_magnitude[:, free])).imag[free]
    return numpy.vstack((real, imaginary))


def power_flow(buses, generators, branches, base=100):
    """(voltages, injections in MVA), complex: every generator holds the voltage given, whatever reactive
    power that takes, and the slack's angle is that of its row."""
    admittance = admittances(buses, branches, base)
    at = places(buses, generators[:, 0])
    asked = -(buses[:, 2] + 1j * buses[:, 3]) / base
    numpy.add.at(asked, at, generators[:, 1] / base)
    size, angle = numpy.ones(len(buses)), numpy.full(len(buses), buses[buses[:, 1] == SLACK, 8][0])
    size[at], angle = generators[:, 5], numpy.radians(angle)
    angled = numpy.flatnonzero(buses[:, 1] != SLACK)
    free = numpy.flatnonzero((buses[:, 1] != SLACK) & (buses[:, 1] != HELD))
    for _ in range(20):
        volts = size * numpy.exp(1j * angle)
        given = volts * (admittance @ volts).conj()
        off = numpy.concatenate(((given - asked).real[angled], (given - asked).imag[free]))
        if abs(off).max() < 1e-11:
            return volts, base * given
        step = numpy.linalg.solve(jacobian(admittance, volts, angled, free), off)
        angle[angled] -= step[: len(angled)]
        size[free] -= step[len(angled) :]
    raise AssertionError("no power flow after 20 steps of Newton's method")
