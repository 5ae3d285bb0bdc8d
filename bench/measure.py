"""What the comparison rests on: one timed run, medians and the interval in which a median lies."""
import itertools
import math
import subprocess
import time
from typing import NamedTuple


def timed(command, given=subprocess.DEVNULL, made=subprocess.PIPE):
    """The finished run, with its elapsed seconds."""
    start = time.perf_counter()
    done = subprocess.run(command, stdin=given, stdout=made, stderr=subprocess.DEVNULL)
    return done, time.perf_counter() - start


class Run(NamedTuple):
    """The elapsed seconds of a run of no iterations, and of one of some."""
    none: float
    some: float

    @property
    def elapsed(self):
        return self.some - self.none


def least(runs):
    """The least elapsed seconds of the iterations alone."""
    return min(run.some for run in runs) - min(run.none for run in runs)


def median(values):
    values = sorted(values)
    half = len(values) // 2
    return values[half] if len(values) % 2 else (values[half - 1] + values[half]) / 2


def interval(values):
    """The k-th least and the k-th greatest value: between them lies the median of many more, 95 times of 100.

    k is the greatest for which fewer than k heads in as many tosses are seen at most 2.5 times of 100.
    """
    values = sorted(values)
    ways = itertools.accumulate(math.comb(len(values), below) for below in range(len(values)))
    rank = sum(count <= 0.025 * 2 ** len(values) for count in ways)
    return (values[rank - 1], values[-rank]) if rank else (-math.inf, math.inf)


def middle_half(values):
    values = sorted(values)
    quarter = len(values) // 4
    return values[quarter], values[-1 - quarter]


def ratio(one, other):
    return one / max(other, 1e-9)
