#!/usr/bin/env python3
"""Prints time and peak memory of the program on inputs of 1 KiB, 100 KiB and 1 MiB.

Usage: bench.py PROGRAM

A profile has one of four shapes: one long common name, as many alternative names as fit, as many
attributes of different types as fit, as many extensions of its own as fit. The input of `show` is
the hex of a certificate of one of three shapes: one long common name, as many relative
distinguished names as fit, as many extensions as fit. That of `accept` has a request with as many
attributes of different types in its subject, alternative names, extensions or different purposes as
fit, and that of `list` as many entries as fit.
The time is the least of several rounds, start of the process included; in a round the three inputs
take turns. Growth is told by the least times, and as the median of what each round grew by: a short
run falls into a machine's best moment sooner than a long one, and then the least times tell too much.
The peak is the child's own, as /usr/bin/time tells it.
"""

import hashlib
import itertools
import os
import statistics
import subprocess
import sys
import tempfile
import time

SIZES = [("1 KiB", 1024), ("100 KiB", 102_400), ("1 MiB", 1_048_576)]
RUNS = 40
# no more rounds once they took so many seconds
ENOUGH = 10
SECONDS = 120
TIMER = "/usr/bin/time"
PROFILE = """secret = "abc"
common_name = "{}"
not_before = "2025-01-01T00:00:00Z"
not_after = "2026-01-01T00:00:00Z"
serial = "01"
"""


def check(program, words, text):
    """Stops where the program doesn't take the input."""
    ran = subprocess.run([program, *words], input=text, stdout=subprocess.DEVNULL, timeout=SECONDS)
    if ran.returncode:
        sys.exit(f"{' '.join(words)}: status {ran.returncode} on {len(text)} bytes")


def common_name(size):
    """A profile of so many bytes."""
    return PROFILE.format("a" * (size - len(PROFILE.format("")))).encode()


def listed(key, items, size):
    """A profile of at most so many bytes, and hardly fewer, with a list of these values at the key."""
    front = f'secret = "abc"\n{key} = ['
    room = size - len(front) - 20
    values = []
    for item in items:
        room -= len(item) + 1
        if room < 0:
            break
        values.append(item)
    return f"{front}{','.join(values)}]\n".encode()


PROFILES = {
    "issue": common_name,
    "issue, names": lambda size: listed("alt_names", itertools.repeat('"dns:a"'), size),
    "issue, attributes": lambda size: listed("subject", (f'"1.2.{i}=a"' for i in itertools.count()), size),
    "issue, extensions": lambda size: listed("extensions", itertools.repeat('{oid="1.2.3",content="00"}'), size),
}


def element(tag, *parts):
    """The DER of one element (X.690, 8.1)."""
    contents = b"".join(parts)
    length = len(contents)
    if length < 128:
        return bytes([tag, length]) + contents
    octets = length.to_bytes((length.bit_length() + 7) // 8, "big")
    return bytes([tag, 128 + len(octets)]) + octets + contents


ALGORITHM = element(0x30, bytes.fromhex("06032b6570"))
VALIDITY = element(0x30, element(0x17, b"250101000000Z"), element(0x17, b"260101000000Z"))


def certificate(names, extensions):
    """The DER of a certificate with these parts of its subject and these extensions."""
    key = element(0x30, ALGORITHM, element(0x03, b"\0key"))
    extensions = element(0xA3, element(0x30, extensions)) if extensions else b""
    signed = element(
        0x30,
        bytes.fromhex("a003020102020101"),
        ALGORITHM,
        element(0x30),
        VALIDITY,
        element(0x30, names),
        key,
        extensions,
    )
    return element(0x30, signed, ALGORITHM, element(0x03, b"\0signature"))


def relative_name(text):
    """A part of a name: a common name alone."""
    attribute = element(0x30, bytes.fromhex("0603550403"), element(0x0C, text))
    return element(0x31, attribute)


EXTENSION = element(0x30, bytes.fromhex("06032a0304"), element(0x04))
SHAPES = {
    "show": lambda room: certificate(relative_name(b"a" * room), b""),
    "show, names": lambda room: certificate(relative_name(b"a") * (room // 12), b""),
    "show, extensions": lambda room: certificate(b"", EXTENSION * (room // len(EXTENSION))),
}


def shown(shape, size):
    """The hex of a certificate of that shape: at most so many bytes, and hardly fewer."""
    # what stands around the part that fills it takes less than 150 bytes
    return SHAPES[shape](size // 2 - 150).hex().encode()


def request(subject, extensions):
    """The DER of a request with these parts of its subject and these extensions, signed by `r`."""
    key = element(0x30, ALGORITHM, element(0x03, b"\0", hashlib.sha256(b"r").digest()))
    asked = element(0x30, bytes.fromhex("06092a864886f70d01090e"), element(0x31, element(0x30, extensions)))
    info = element(0x30, element(0x02, b"\0"), element(0x30, subject), key, element(0xA0, asked if extensions else b""))
    signature = hashlib.sha256(b"r" + info).digest()
    return element(0x30, info, ALGORITHM, element(0x03, b"\0", signature))


def base128(number):
    """The octets of an arc (X.690, 8.19.2)."""
    octets = [number % 128]
    while number >= 128:
        number //= 128
        octets.insert(0, 128 + number % 128)
    return bytes(octets)


def attribute(arc):
    """A part of a name whose type has this last arc."""
    return element(0x31, element(0x30, element(0x06, b"\x2a", base128(arc)), element(0x0C, b"a")))


def purposes(room):
    """Different purposes, as many as take so many octets."""
    listed = []
    for arc in itertools.count(128):
        octets = element(0x06, b"\x2a", base128(arc))
        room -= len(octets)
        if room < 0:
            return b"".join(listed)
        listed.append(octets)


KEY_USAGE = element(0x30, bytes.fromhex("0603551d0f"), element(0x04, bytes.fromhex("03020780")))
REQUESTS = {
    # most of the parts take 13 octets
    "accept, attributes": lambda room: request(b"".join(attribute(i) for i in range(room // 13)), b""),
    "accept, names": lambda room: request(
        relative_name(b"a"),
        element(0x30, bytes.fromhex("0603551d11"), element(0x04, element(0x30, element(0x82, b"a") * (room // 3)))),
    ),
    "accept, extensions": lambda room: request(relative_name(b"a"), KEY_USAGE * (room // len(KEY_USAGE))),
    # the most of them take 5 or 6 octets
    "accept, purposes": lambda room: request(
        relative_name(b"a"), element(0x30, bytes.fromhex("0603551d25"), element(0x04, element(0x30, purposes(room))))
    ),
}
ACCEPT = 'requester = "r"\nissuer = {{secret = "i", common_name = "i"}}\nrequest = "{}"\n'


def accepted(shape, size):
    """The profile of a request of that shape: at most so many bytes, and hardly fewer."""
    return ACCEPT.format(REQUESTS[shape](size // 2 - 240).hex()).encode()


LIST = """this_update = "2025-01-01T00:00:00Z"
next_update = "2026-01-01T00:00:00Z"
number = "01"
issuer = {secret = "i", common_name = "i"}
revoked = [
"""
ENTRY = '{serial="01",time="2025-01-01T00:00:00Z",reason="keyCompromise"},\n'


def revoked(size):
    """A list's profile of at most so many bytes, and hardly fewer, with as many entries as fit."""
    return (LIST + ENTRY * ((size - len(LIST) - 2) // len(ENTRY)) + "]\n").encode()


def seconds(command, path):
    """The wall time of one run."""
    with open(path, "rb") as text:
        start = time.perf_counter()
        # with a timeout the end is polled for, in steps of up to 50 ms
        subprocess.run(command, stdin=text, stdout=subprocess.DEVNULL, check=True)
        return time.perf_counter() - start


def rounds_of(command, paths):
    """The wall times of each round. The inputs take turns, so that a slow spell of the machine meets all of them."""
    rounds = []
    begun = time.perf_counter()
    while len(rounds) < RUNS and (not rounds or time.perf_counter() - begun < ENOUGH):
        rounds.append([seconds(command, path) for path in paths])
    return rounds


def peak_kib(command, path):
    """The peak of resident memory of one run, or None where it can't be told."""
    if not os.access(TIMER, os.X_OK):
        return None
    # the timer and not this interpreter starts the program: a child's peak begins with its parent's
    with tempfile.NamedTemporaryFile("r") as told, open(path, "rb") as text:
        words = [TIMER, "-f", "%M", "-o", told.name, *command]
        subprocess.run(words, stdin=text, stdout=subprocess.DEVNULL, check=True, timeout=SECONDS)
        return int(told.read().split()[-1])


def row(name, label, size, took, peak):
    memory = "-" if peak is None else f"{peak} KiB"
    print(f"{name:<18} {label:>8} {size:>9} {took * 1000:>10.2f} ms {memory:>12}")


def growth(name, before, after, ratio):
    """How the last row but one grew to the last, and by how much within a round."""
    (size, took, peak), (more, longer, higher) = before, after
    tenfold = 10 * size / more
    told = f"{name}, 100 KiB to 1 MiB: input x {more / size:.2f}, time x {longer / took:.2f}"
    told += f" (for ten times the input {longer / took * tenfold:.2f}, in a round {ratio * tenfold:.2f})"
    if peak is not None:
        told += f", peak {(higher - peak) * 1024 / (more - size):.1f} bytes more for each byte more"
    return told


def measure(program, name, words, text_of):
    """Prints the rows of one command, and returns its growth."""
    command = [program, *words]
    with tempfile.TemporaryDirectory() as folder:
        paths = []
        for label, size in SIZES:
            text = text_of(size)
            check(program, words, text)
            paths.append(os.path.join(folder, label))
            with open(paths[-1], "wb") as kept:
                kept.write(text)
        rounds = rounds_of(command, paths)
        told = [
            (os.path.getsize(path), min(took), peak_kib(command, path))
            for path, took in zip(paths, zip(*rounds))
        ]
    for (label, _), figures in zip(SIZES, told):
        row(name, label, *figures)
    ratio = statistics.median(longer / took for _, took, longer in rounds)
    return growth(name, *told[-2:], ratio)


def main():
    if len(sys.argv) != 2:
        sys.exit("usage: bench.py PROGRAM")
    program = os.path.abspath(sys.argv[1])
    if not os.access(program, os.X_OK):
        sys.exit(f"{program} is no program")
    print(f"{'command':<18} {'input':>8} {'bytes':>9} {'time':>13} {'peak':>12}")
    grown = []
    for shape, profile in PROFILES.items():
        grown.append(measure(program, shape, ["issue"], profile))
    for shape in SHAPES:
        grown.append(measure(program, shape, ["show"], lambda size: shown(shape, size)))
    for shape in REQUESTS:
        grown.append(measure(program, shape, ["accept"], lambda size: accepted(shape, size)))
    grown.append(measure(program, "list", ["list"], revoked))
    print("\n".join(grown))


if __name__ == "__main__":
    main()
