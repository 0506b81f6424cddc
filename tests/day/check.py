#!/usr/bin/env python3
"""Runs the program `day`, which is named on the command line, and fails where it does not say what it should.

The numbers of its report are counted here again, from the lists of tests/frame and documents 01 and 02 alone; then it is lent samples
that are damaged, an input that cannot be read and an output that cannot be written.
"""
import os
import subprocess
import sys

import accepted

ROOT = accepted.ROOT
FRAMES = accepted.frames()
SAMPLE = (ROOT / "crates/day/stdin").read_bytes()
failed = []


def expect(name, right):
    print(f"{'ok' if right else 'FAILED'}: {name}")
    if not right:
        failed.append(name)


def words(size):
    return -(-2 * size // 15)


def frame_size(size, mode):
    return size - (mode - 1) * words(size) - 2 - (size > 40) - 2 * (mode > 2 and size >= 80)


def slot_for(length):
    """The smallest slot, and in it the strongest mode, with room for exactly so many bytes."""
    fitting = ((size, mode) for size in range(40, 401) for mode in (4, 3, 2) if frame_size(size, mode) == length)
    return next(fitting, None)


def changed_bits(place, changes):
    """The ones in what is added to a slot's first semi-octets: 1 to 15 in turn and round again, from one further on with each frame."""
    return sum(bin((place + i) % 15 + 1).count("1") for i in range(changes))


def writable(frame):
    """Whether a frame can be written from its fields: LSB mode 0, and a residual bit for each line that is not 0."""
    return frame.lsb_mode == 0 and frame.residual_bits == sum(line != 0 for line in frame.spectrum)


def level(a, b):
    """The escapes of a pair of magnitudes: it is halved while one of them is 4 or more."""
    return 0 if max(a, b) < 4 else 1 + level(a // 2, b // 2)


def symbols_sent(frame):
    """The symbols of a frame as it is sent: written from its fields it has no escapes but those that its lines need."""
    if not writable(frame):
        return frame.symbols
    lines = [abs(line) for line in frame.spectrum]
    return sum(1 + order for order in frame.orders if order) + sum(1 + level(a, b) for a, b in zip(lines[::2], lines[1::2]))


def counted(room):
    """What the report must say, by the words of its lines, and the entries of the record, which is of form 2 and has so many bytes;
    refusals 3 and 4 are one sum."""
    sent, ways, entries, used = {2: 0, 3: 0, 4: 0}, [0] * 4, [], 5
    total = dict(left=0, anew=0, changed=0, bits=0, lines=0, symbols=0, refused=0)
    for place, frame in enumerate(FRAMES):
        length = len(frame.data)
        slot = slot_for(length)
        if slot is None:
            total["left"] += 1
            continue
        size, mode = slot
        way = place // 4 % 4
        changes = (0, 1 + place % 5, (mode - 1) * words(size), mode * words(size))[way]
        total["anew"] += writable(frame)
        sent[mode] += 1
        ways[way] += 1
        if way == 3:
            total["refused"] += 1
            continue
        total["changed"] += changes
        total["bits"] += changed_bits(place, changes)
        total["lines"] += frame.last_line
        total["symbols"] += symbols_sent(frame)
        if used + length + 6 > room:
            break
        used += length + 6
        entries.append((length, place % 4, changes))
    return sent, ways, total, entries, used


def report_numbers(text):
    """The number at the end of each fact, by what stands before it, under its heading."""
    found, heading = {}, ""
    for line in text.splitlines():
        if line.startswith("  "):
            what, number = line.rsplit(None, 1)
            found[heading, what.strip()] = int(number)
        else:
            heading = line
    return found


def check_report(text):
    report, listing = text.split("\nIts listing", 1)
    said = report_numbers(report)
    by = {}
    for (heading, what), number in said.items():
        by.setdefault(heading, []).append(number)
    room = by["The record"][0]
    sent, ways, total, entries, used = counted(room)
    accepted = sum(ways[:3])
    expect("the sample is counted", by["The sample"] == [len(FRAMES), total["left"], sum(sent.values()),
                                                         len(FRAMES) - total["left"] - sum(sent.values())])
    expect("frames written anew, and those sent as they are",
           by["Frames sent, by how the headset has them"] == [total["anew"], sum(sent.values()) - total["anew"]])
    expect("slots by mode", by["Slots sent, by mode"] == [sent[2], sent[3], sent[4]])
    expect("slots by what happens on the way", by["Slots sent, by what happens on the way"] == ways)
    expect("clean, repaired and how much", by["Slots accepted"] == [ways[0], ways[1] + ways[2], total["changed"], total["bits"]])
    expect("nothing differs from what was sent", by["Accepted slots beside what was sent"] == [0, 0, 0, 0])
    expect("frames read", by["Accepted frames read into their fields"] == [accepted, total["lines"], total["symbols"]])
    refused = by["Refused, by number"]
    expect("refused: all that was damaged beyond repair, and what had no room", refused[:2] == [0, 0]
           and refused[2] + refused[3] == total["refused"] and refused[4:] == [0, accepted - len(entries), 0])
    expect("the record", by["The record"] == [room, used, len(entries)])
    expect("the record was filled, and the walk ended there", accepted == len(entries) + 1)
    wanted = [f"records {len(entries)}"] + [f"{i} {n} {q} {c}" for i, (n, q, c) in enumerate(entries)]
    expect("the listing", listing.splitlines()[2:] == wanted)


def run(program, data, **more):
    return subprocess.run([program], input=data, capture_output=True, timeout=60, **more)


def check_damaged(program, name, data, says):
    got = run(program, data)
    expect(f"a sample that {name}", got.stdout == b"" and got.stderr == b"day: " + says + b"\n")


def check_samples(program):
    """Each fault alone and, as the first that is named, with those that are tested behind it."""
    short, rate = b"the sample is cut short", b"the sample has a rate that is none of 8, 16, 24, 32 and 48 kHz"
    duration = b"the sample has a duration that is none of 2.5, 5, 7.5 and 10 ms"
    size = b"the sample has a frame that is not of 20 to 400 bytes"
    check_damaged(program, "ends in a frame", SAMPLE[:-1], short)
    for length in (1, 2, 3):
        check_damaged(program, f"ends after {length} bytes", b"\x2c\x05\x00"[:length], short)
    check_damaged(program, "has an unknown rate", b"\x2c" + SAMPLE[1:], rate)
    check_damaged(program, "has an unknown rate and nothing right behind it", b"\x2c\x05\x00\x13", rate)
    for quarters in (0, 5):
        check_damaged(program, f"has a duration of {quarters}", SAMPLE[:1] + bytes([quarters]) + SAMPLE[2:], duration)
        check_damaged(program, f"has a duration of {quarters} and a short frame", b"\x10" + bytes([quarters]) + b"\x00\x13", duration)
    for length in (19, 401):
        data = b"\x10\x28" + length.to_bytes(2, "big")
        check_damaged(program, f"has a frame of {length} bytes", data + bytes(length), size)
        check_damaged(program, f"has a frame of {length} bytes and ends in it", data, size)
    check_damaged(program, "is too long", bytes(65537), b"the sample is longer than 65,536 bytes")


def main(program):
    got = run(program, SAMPLE)
    expect("the stored output is what it writes", got.stdout == (ROOT / "crates/day/stdout").read_bytes() and got.stderr == b"")
    check_report(got.stdout.decode())
    check_samples(program)
    folder = os.open(ROOT, os.O_RDONLY)
    got = subprocess.run([program], stdin=folder, capture_output=True, timeout=60)
    expect("a sample that cannot be read", got.stdout == b"" and got.stderr == b"day: the sample cannot be read\n")
    with open("/dev/full", "wb") as full:
        got = subprocess.run([program], input=SAMPLE, stdout=full, stderr=subprocess.PIPE, timeout=60)
    expect("an output that cannot be written", got.stderr == b"day: standard output cannot be written\n")
    sys.exit(1 if failed else 0)


if __name__ == "__main__":
    if len(sys.argv) != 2:
        sys.exit(__doc__)
    main(sys.argv[1])
