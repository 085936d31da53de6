#!/usr/bin/env python3
"""path_growth.py SHELF FOLDER [FIRST [WORD]]: what `shelf path` costs as hostile input doubles.

For each construct a line with the octets of the input and the instructions, in millions by callgrind, at FIRST (16), twice and four
times as many parts, the two ratios, and the answer to the last; with WORD, of the constructs that have it in their names."""
import os
import re
import subprocess
import sys

sys.dont_write_bytecode = True
sys.path.insert(0, os.path.join(os.path.dirname(os.path.abspath(__file__)), "..", "tools"))
import hostile_paths as h  # noqa: E402


def host(text):
    return h.tlv(0x82, text.encode())


def uri(text):
    return h.tlv(0x86, text.encode())


def point(*names):
    return h.seq(h.tlv(0xA0, h.tlv(0xA0, *names)))


def points(*all_points):
    return h.extension("2.5.29.31", h.seq(*all_points))


def issuing(*names):
    return h.extension("2.5.29.28", h.seq(h.tlv(0xA0, h.tlv(0xA0, *names))), True)


def spoilt(octets):
    return octets[:-1] + bytes([octets[-1] ^ 1])


FRESH = h.extension("2.5.29.46", h.seq(point(uri("http://a/d"))))
BASE = h.extension("2.5.29.27", h.integer(1), True)


def leaf(*extensions, broken=False, subject=None):
    made = h.certificate(h.ROOT, h.Party(subject or h.name(h.part(h.CN, "leaf"))), extensions, serial=77)
    return [spoilt(made) if broken else made, h.ANCHOR]


def many(n, what):
    return [what(i) for i in range(n)]


def revocation_constructs(n):
    named = points(*many(n, lambda i: point(uri(f"http://a/{i}"))))
    wrong = many(n, lambda i: spoilt(h.revocations(h.ROOT, [], i)))
    old = many(n, lambda i: h.revocations(h.ROOT, [], 1, this="260101000000Z", following="260201000000Z", extensions=[FRESH]))
    deltas = many(n, lambda i: spoilt(h.revocations(h.ROOT, [], 5 + i, extensions=[BASE])))
    yield "points by lists that nobody signed", leaf(named), wrong
    yield "the same, beneath a signature that doesn't hold", leaf(named, broken=True), wrong
    yield "old lists by delta lists", leaf(FRESH), [*old, *deltas]
    yield "points by old lists by delta lists", leaf(FRESH, named), [*old, *deltas]
    full = [h.revocations(h.ROOT, many(20, lambda j: h.entry(1000 * i + j + 500)), i, this=f"2611{i % 16 + 1:02}000000Z") for i in range(n)]
    yield "lists of entries", leaf(), full
    wide = many(8 * n, lambda i: uri(f"http://a/{i}"))
    turned = issuing(*reversed(wide[:-1]), uri("http://b"))
    yield "names of a point by names of a list's", leaf(points(point(*wide))), [h.revocations(h.ROOT, [], 1, extensions=[turned])]
    yield "lists of one time and number", leaf(), many(n, lambda i: h.revocations(h.ROOT, [], 1))
    others = many(n, lambda i: h.revocations(h.ROOT, [], 1, extensions=[issuing(uri(f"http://b/{i}"))]))
    yield "points by lists that hold", leaf(points(*many(4 * n, lambda i: point(uri(f"http://a/{i}"))))), others
    added = many(n, lambda i: h.revocations(h.ROOT, [], 5 + i, extensions=[BASE]))
    yield "old lists by delta lists that hold", leaf(FRESH), [*old, *added]


def chain(n, *first, more=()):
    """n certificates; the one that the root issued has these extensions, the others have those."""
    certs, above = [], h.ROOT
    for i in range(n):
        below = h.Party(h.name(h.part(h.CN, f"a{i}")))
        certs.insert(0, h.certificate(above, below, [*h.BOTH, *(more if i else first)]))
        above = below
    return [*certs, h.ANCHOR]


def issuer_constructs(n):
    named, above = [], h.ROOT
    for i in range(n):
        below = h.Party(h.name(h.part(h.CN, "Authority")))
        named.insert(0, h.certificate(above, below, h.BOTH))
        above = below
    path = [h.certificate(above, h.Party(h.name(h.part(h.CN, "leaf")))), *named, h.ANCHOR]
    by_last = many(n, lambda i: h.revocations(above, [], i))
    yield "keys of one name by lists", path, [h.revocations(h.ROOT, []), *by_last]
    yield "keys of one name by lists that nobody signed", path, [h.revocations(h.ROOT, []), *map(spoilt, by_last)]
    more = many(4 * n, lambda i: h.extension(f"1.3.6.1.4.1.{i + 1}", b"\5\0"))
    signers = many(16, lambda i: h.Signer(h.certificate(h.ROOT, h.Party(h.name(h.part(h.CN, f"s{i}"))), [h.LISTS_ONLY, *more])))
    yield "certificates of issuers of lists", leaf(), [h.revocations(h.ROOT, []), *signers]
    chained, lists, top = [], [h.revocations(h.ROOT, [])], h.ROOT
    for i in range(n):
        below = h.Party(h.name(h.part(h.CN, f"a{i}")))
        chained.insert(0, h.certificate(top, below, h.BOTH))
        lists.append(h.revocations(below, []))
        top = below
    yield "certificates, each with its list", [*chained, h.ANCHOR], lists
    yield "the same by certificates of issuers of lists", [*chained, h.ANCHOR], [*lists, *signers]
    far = h.Party(h.name(h.part(h.CN, "a")))
    at_far = [h.certificate(above, h.Party(h.name(h.part(h.CN, "leaf"))), [h.at_point(b"http://a", far)]), *named, h.ANCHOR]
    yield "the same below a long path", at_far, [h.revocations(h.ROOT, []), *many(16, lambda i: h.Signer(h.certificate(above, far, [h.LISTS_ONLY])))]


def certificate_constructs(n):
    yield "certificates", chain(n), []
    yield "certificates, and a list", chain(n), [h.revocations(h.ROOT, [], 1)]
    hosts = many(4 * n, lambda i: host(f"{'x' * 40}{i}.example"))
    others = h.excluded(*many(4 * n, lambda i: host(f"{'y' * 40}{i}.example")))
    yield "names by subtrees", h.beneath(others, h.name(h.part(h.CN, "a")), hosts), []
    long = many(n, lambda i: h.directory(h.name(h.part(h.O, "x" * 8 * n + str(i)))))
    others = h.excluded(*many(n, lambda i: h.directory(h.name(h.part(h.O, "x" * 8 * n + "y" + str(i))))))
    yield "long names by long subtrees", h.beneath(others, h.name(h.part(h.CN, "a")), long), []
    attributes = many(4 * n, lambda i: h.seq(h.oid(h.OU), h.tlv(12, f"{i:06}".encode())))
    odd = h.tlv(0x30, h.tlv(0x31, *attributes))
    yield "attributes of one part", h.beneath(h.excluded(h.directory(odd[:-1] + b"z")), odd), []
    yield "attributes of one part, self-issued", leaf(subject=odd), []
    arcs = many(4 * n, lambda i: h.oid(f"1.3.6.1.4.1.{i + 1}"))
    policies = h.extension("2.5.29.32", h.seq(*[h.seq(it) for it in arcs]))
    mappings = h.extension("2.5.29.33", h.seq(*[h.seq(a, b) for a, b in zip(arcs, reversed(arcs))]))
    middle = h.Party(h.name(h.part(h.CN, "Middle")))
    below = h.certificate(middle, h.Party(h.name(h.part(h.CN, "leaf"))), [policies])
    yield "policies by mappings", [below, h.certificate(h.ROOT, middle, [*h.BOTH, policies, mappings]), h.ANCHOR], []
    users = "policies = [" + ", ".join(f'"1.3.6.1.4.1.{i + 1}"' for i in range(4 * n)) + "]\n"
    yield "policies of the user by policies", leaf(policies), [], users
    any_policy = h.seq(h.oid("2.5.29.32.0"))
    first = h.extension("2.5.29.32", h.seq(any_policy, *[h.seq(it) for it in arcs]))
    yield "policies by certificates", chain(n, first, more=[h.extension("2.5.29.32", h.seq(any_policy))]), []
    yield "extensions", leaf(*many(4 * n, lambda i: h.extension(f"1.3.6.1.4.1.{i + 1}", b"\5\0"))), []


def constructs(n):
    yield from revocation_constructs(n)
    yield from issuer_constructs(n)
    yield from certificate_constructs(n)


def cost(shelf, folder, number, path, lists, more=""):
    _, line, _ = h.said(shelf, folder, number, path, lists, more)
    files = [f"{folder}/{number}.{i}.der" for i in range(len(path) + len(lists))]
    trace = f"{folder}/callgrind.out"
    words = ["valgrind", "--tool=callgrind", f"--callgrind-out-file={trace}", shelf, "path", f"{folder}/{number}.toml", *files]
    ran = subprocess.run(words, capture_output=True, text=True)
    found = re.search(r"Collected : (\d+)", ran.stderr)
    return sum(os.path.getsize(it) for it in files), int(found[1]) if found else 0, line


def main():
    shelf, folder = sys.argv[1:3]
    first = int(sys.argv[3]) if len(sys.argv) > 3 else 16
    word = sys.argv[4] if len(sys.argv) > 4 else ""
    nothing = cost(shelf, folder, "base", leaf(), [])[1]
    print(f"one certificate: {nothing / 1e6:.2f} million instructions")
    rows = zip(*(list(constructs(n)) for n in (first, 2 * first, 4 * first)))
    for row in rows:
        if word not in row[0][0]:
            continue
        got = [cost(shelf, folder, "grow", *rest) for _, *rest in row]
        spent = [it[1] - nothing * 0.9 for it in got]
        octets, millions = ", ".join(f"{it[0]:,}" for it in got), ", ".join(f"{it[1] / 1e6:.1f}" for it in got)
        print(f"{row[0][0]} | {octets} | {millions} | {spent[1] / spent[0]:.1f}, {spent[2] / spent[1]:.1f} | {got[2][2]}", flush=True)


if __name__ == "__main__":
    main()
