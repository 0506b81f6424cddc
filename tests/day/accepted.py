"""The accepted frames of the two lists of tests/frame, in the order of the sample of `day`."""
import itertools
import pathlib
from typing import NamedTuple

ROOT = pathlib.Path(__file__).resolve().parents[2]


class Frame(NamedTuple):
    khz: int
    quarters: int  # the duration, in quarter milliseconds
    data: bytes
    last_line: int
    lsb_mode: int
    orders: tuple  # of the TNS filters, 0 where the flag is
    symbols: int
    residual_bits: int
    spectrum: tuple  # up to the last line


def listed(name, quarters=None):
    """The accepted frames of a list: of that duration, or each of the one that its line names."""
    for line in (ROOT / "tests/frame" / name).read_text().splitlines():
        khz, *fields = line.split()
        duration = quarters or int(fields.pop(0))
        if fields[1] == "0":
            yield Frame(int(khz), duration, bytes.fromhex(fields[0]), int(fields[4]), int(fields[5]), tuple(map(int, fields[19:21])),
                        int(fields[23]), int(fields[24]), tuple(map(int, fields[26].split(","))))


def frames():
    """One of frames.txt and one of read_durations.txt in turn, a hundred of each: more than the day's record has room for."""
    turns = zip(listed("frames.txt", 40), listed("read_durations.txt"))
    return [frame for turn in itertools.islice(turns, 100) for frame in turn]
