#!/usr/bin/env python3
"""Runs the program `list` on the lines of form2.txt that are its own and on records of both forms made here from documents
01 and 02, and compares what it writes, on both outputs.
usage: list.py PROGRAM [SEED]"""
import os, pathlib, random, signal, subprocess, sys, time

PROGRAM = sys.argv[1]
LINES = pathlib.Path(__file__).resolve().parent / "form2.txt"
UNKNOWN = 65535
failed = 0


def entry(form, frame, request, count, bits):
    return frame + bytes([request, count]) + (bits.to_bytes(2, "big") if form == 2 else b"") + len(frame).to_bytes(2, "big")


def record(form, entries):
    return b"".join(entry(form, *e) for e in entries) + len(entries).to_bytes(4, "big") + (b"\2" if form == 2 else b"")


def listing(entries):
    lines = ["records %d" % len(entries)]
    lines += ["%d %d %d %d" % (k, len(f), r, c) for k, (f, r, c, b) in enumerate(entries)]
    return "".join(line + "\n" for line in lines).encode()


def test(name, right):
    global failed
    failed += not right
    print("%s: list: %s" % ("ok" if right else "FAILED", name))


def run(data):
    done = subprocess.run([PROGRAM], input=data, capture_output=True)
    return done.stdout, done.stderr


def writes(data, text):
    return run(data) == (text, b"")


def lists(entries):
    """What is listed is the same in both forms."""
    return all(writes(record(form, entries), listing(entries)) for form in (1, 2))


def is_damaged(data):
    return writes(data, b"damaged\n")


def slowly(data, piece, pause):
    with subprocess.Popen([PROGRAM], stdin=subprocess.PIPE, stdout=subprocess.PIPE, stderr=subprocess.PIPE) as child:
        for at in range(0, len(data), piece):
            child.stdin.write(data[at:at + piece])
            child.stdin.flush()
            time.sleep(pause)
        child.stdin.close()
        return child.stdout.read(), child.stderr.read()


rng = random.Random(int(sys.argv[2], 0) if len(sys.argv) > 2 else 634)


def some(n, low=20, high=400):
    entries = []
    for _ in range(n):
        count = rng.choice((0, 1, 162, rng.randint(0, 162)))
        bits = rng.choice((count, 4 * count, rng.randint(count, 4 * count), UNKNOWN))
        entries.append((rng.randbytes(rng.randint(low, high)), rng.randint(0, 3), count, bits))
    return entries


def with_byte(data, at, byte):
    return data[:at] + bytes([byte]) + data[at + 1:]


lines = [line.split(" ") for line in LINES.read_text().splitlines() if line.startswith("list ")]
for name, bytes_in, text in lines:
    test("form2.txt: %d bytes" % (len(bytes_in) // 2), writes(bytes.fromhex(bytes_in.replace("-", "")), bytes.fromhex(text)))
test("form2.txt has lines of the listing", len(lines) > 0)

example = bytes(range(20)) + bytes([3, 0, 0, 20]) + bytes([0, 0, 0, 1])
test("the example of 28 bytes", len(example) == 28 and writes(example, b"records 1\n0 20 3 0\n"))
test("the same in form 2", writes(bytes(range(20)) + bytes([3, 0, 0, 0, 0, 20]) + bytes([0, 0, 0, 1, 2]), b"records 1\n0 20 3 0\n"))
test("records of no entries", writes(bytes(4), b"records 0\n") and writes(bytes(4) + b"\2", b"records 0\n"))
test("several entries", all(lists(some(n)) for n in (1, 2, 3, 9, 10, 11, 99, 100, 101)))
ends = [(bytes(20), 0, 0, 0), (bytes(400), 3, 162, 648), (bytes(99), 1, 9, UNKNOWN), (bytes(100), 2, 10, 10)]
test("fields at their ends", all(writes(record(form, ends), b"records 4\n0 20 0 0\n1 400 3 162\n2 99 1 9\n3 100 2 10\n")
                                 for form in (1, 2)))
few = some(5)
form_1, form_2 = record(1, few), record(2, few)
test("another end number", is_damaged(form_1[:-1] + b"\6") and is_damaged(form_2[:-2] + b"\6\2"))
test("a first byte left out", is_damaged(form_1[1:]) and is_damaged(form_2[1:]))
test("every other last byte of form 2", all(is_damaged(form_2[:-1] + bytes([last])) for last in range(256) if last != 2))
test("an end of form 2 on entries of form 1, and the reverse", is_damaged(form_1 + b"\2") and is_damaged(form_2[:-1]))
test("fields out of range", all(is_damaged(record(form, [e])) for form in (1, 2) for e in
     [(bytes(19), 0, 0, 0), (bytes(401), 0, 0, 0), (bytes(20), 4, 0, 0), (bytes(20), 0, 163, 163)]))
test("bits out of range", all(is_damaged(record(2, [(bytes(20), 0, count, bits)])) for count, bits in
     [(0, 1), (1, 0), (1, 5), (5, 4), (5, 21), (162, 161), (162, 649), (0, 65534), (162, 65534)]))
test("empty input", is_damaged(b""))
test("1, 2 and 3 bytes, and 5 without an end of form 2", all(is_damaged(bytes(n)) for n in (1, 2, 3, 5)))

# a record of 65,536 bytes in each form, with as many entries as there can be
largest = {1: some(2729, 20, 20) + [(bytes(32), 2, 1, 1)], 2: some(2519, 20, 20) + [(bytes(31), 2, 1, 1)]}
full = {form: record(form, largest[form]) for form in (1, 2)}
test("65,536 bytes in 2,730 entries, and in 2,520 of form 2",
     all(len(full[form]) == 65536 and writes(full[form], listing(largest[form])) for form in (1, 2)))
test("65,536 bytes that are no record", is_damaged(bytes(65535) + b"\1") and is_damaged(bytes(65535) + b"\2"))
test("65,537 bytes and more", all(writes(full[form] + bytes(n), b"too long\n") for form in (1, 2) for n in (1, 2, 4096, 200000)))
test("a record behind 65,537 bytes of input", all(writes(bytes(1) + full[form], b"too long\n") for form in (1, 2)))
longer = {1: largest[1][:-1] + [(bytes(33), 2, 1, 1)], 2: largest[2][:-1] + [(bytes(32), 2, 1, 1)]}
test("65,537 bytes that are in order but for their number", all(writes(record(form, longer[form]), b"too long\n")
                                                               for form in (1, 2)))
many = some(40)
for form in (1, 2):
    test("form %d, a few bytes at a time through a slow pipe" % form,
         slowly(record(form, many[:4]), 3, 0.001) == (listing(many[:4]), b""))
    test("form %d, in pieces of 1,000 bytes through a slow pipe" % form,
         slowly(record(form, many), 1000, 0.01) == (listing(many), b""))
test("65,537 bytes through a slow pipe", slowly(full[2] + b"\0", 8192, 0.01) == (b"too long\n", b""))
test("200 random records in both forms", all(lists(some(rng.randint(0, 12))) for _ in range(200)))


def damaged_field_is_seen(form):
    """A record in which a request, a count or a length is another, so that it is none."""
    entries = some(3, 20, 24)
    data, beside = record(form, entries), 2 + 2 * form
    starts = [sum(len(e[0]) + beside for e in entries[:k]) for k in range(4)]
    k = rng.randrange(3)
    return is_damaged(with_byte(data, starts[k] + len(entries[k][0]), rng.randint(4, 255))) and is_damaged(
        with_byte(data, starts[k] + len(entries[k][0]) + 1, rng.randint(163, 255))) and is_damaged(
        with_byte(data, starts[k + 1] - 1, len(entries[k][0]) + rng.choice((-1, 1))))


test("100 records with a damaged field, in both forms", all(damaged_field_is_seen(form) for form in (1, 2) for _ in range(50)))

directory = os.open("/", os.O_RDONLY)
done = subprocess.run([PROGRAM], stdin=directory, capture_output=True)
test("a read that fails is said on standard error, and nothing is listed",
     done.stdout == b"" and done.stderr == b"list: standard input cannot be read\n")
done = subprocess.run([PROGRAM], stdin=directory, capture_output=True, preexec_fn=lambda: os.close(0))
test("no standard input at all is said on standard error", done.stdout == b"" and done.stderr == b"list: standard input cannot be read\n")
with open("/dev/full", "wb") as nowhere:
    done = subprocess.run([PROGRAM], input=example, stdout=nowhere, stderr=subprocess.PIPE)
test("a write that fails is said on standard error", done.stderr == b"list: standard output cannot be written\n")
ends = os.pipe()
os.close(ends[0])
done = subprocess.run([PROGRAM], input=example, stdout=ends[1], stderr=subprocess.PIPE, restore_signals=False,
                      preexec_fn=lambda: signal.signal(signal.SIGPIPE, signal.SIG_IGN))
test("a closed pipe, with its signal ignored, is said on standard error", done.stderr == b"list: standard output cannot be written\n")
sys.exit(failed != 0)
