#!/usr/bin/env python3
"""registers.py SHELF FOLDER [COUNT..]: what a register of COUNT certificates costs (100, 1000, 10000 and 100000), a fifth of them revoked, beside `openssl ca`.

SHELF is the program, and FOLDER may not be there yet. The register is filled by Python's sqlite3 with copies of one certificate whose serial numbers
differ, and so is the index.txt of `openssl ca`. Then each command runs on it: its seconds, the least of RUNS=3, and its peak memory. OpenSSL 3.0 or
later makes the key; a line a command."""
import os
import resource
import shutil
import sqlite3
import subprocess
import sys
import time

if len(sys.argv) < 3 or os.path.exists(sys.argv[2]):
    sys.exit("registers.py SHELF FOLDER [COUNT..], where FOLDER isn't there yet")
shelf = os.path.realpath(sys.argv[1])
os.makedirs(sys.argv[2])
os.chdir(sys.argv[2])
counts = [int(word) for word in sys.argv[3:]] or [100, 1000, 10000, 100000]
rounds = int(os.environ.get("RUNS", 3))
now = int(time.time())


def must(*words):
    done = subprocess.run(words, stdin=subprocess.DEVNULL, capture_output=True)
    if done.returncode:
        sys.exit(f"registers: {' '.join(words)}: {done.stderr.decode()}")
    return done


def write(name, octets):
    with open(name, "wb") as file:
        file.write(octets)


def signed(message):
    write("m.tbs", message)
    must("openssl", "pkeyutl", "-sign", "-rawin", "-inkey", "ca.key", "-in", "m.tbs", "-out", "m.sig")


def measured(words_of):
    """The least seconds of some runs, and the greatest peak memory in MiB; words_of gives the words of a run by its number."""
    least, most = None, 0
    for turn in range(rounds):
        words = words_of(turn)
        began = time.monotonic()
        child = os.fork()
        if child == 0:
            with open(os.devnull, "r+b") as nothing:
                for number in (0, 1, 2):
                    os.dup2(nothing.fileno(), number)
            os.execvp(words[0], words)
        _, status, used = os.wait4(child, 0)
        seconds = time.monotonic() - began
        if status:
            sys.exit(f"registers: {' '.join(words)}: status {status}")
        least = seconds if least is None else min(least, seconds)
        most = max(most, used.ru_maxrss / 1024)
    return least, most


def told(what, count, found):
    print(f"{what}, {count}: {found[0]:.2f} s, {found[1]:.0f} MiB", flush=True)


def fill(register, count):
    """So many certificates more, a fifth of them revoked."""
    base = sqlite3.connect(register)
    base.execute("pragma synchronous = off")
    row = base.execute("select count(*) from event").fetchone()[0]
    serial, not_after, message = base.execute("select serial, time, body from event where kind = 2 limit 1").fetchone()
    octets = base.execute("select body from event where kind = 3 limit 1").fetchone()[0]
    rows = []
    for number in range(count):
        other = b"\x01" + number.to_bytes(len(serial) - 1, "big")
        rows.append((2, 0, other, None, not_after, None, message.replace(serial, other)))
        rows.append((3, None, other, None, None, None, octets.replace(serial, other)))
        if number % 5 == 0:
            rows.append((4, 4, other, None, now - 1000, None, None))
    base.executemany("insert into event (kind, detail, serial, number, time, until, body) values (?, ?, ?, ?, ?, ?, ?)", rows)
    base.commit()
    base.close()


def index(count):
    end = time.strftime("%y%m%d%H%M%SZ", time.gmtime(now + 90 * 86400))
    at = time.strftime("%y%m%d%H%M%SZ", time.gmtime(now - 1000))
    with open("index.txt", "w") as file:
        for number in range(count):
            serial = "01" + number.to_bytes(15, "big").hex().upper()
            name = f"/CN={number}"
            file.write(f"R\t{end}\t{at},superseded\t{serial}\tunknown\t{name}\n" if number % 5 == 0 else f"V\t{end}\t\t{serial}\tunknown\t{name}\n")


for words in (("genpkey", "-algorithm", "EC", "-pkeyopt", "ec_paramgen_curve:P-256", "-out", "ca.key"), ("pkey", "-in", "ca.key", "-pubout", "-out", "ca.pub"),
              ("genpkey", "-algorithm", "EC", "-pkeyopt", "ec_paramgen_curve:P-256", "-out", "leaf.key"), ("pkey", "-in", "leaf.key", "-pubout", "-out", "leaf.pub"),
              ("req", "-new", "-key", "leaf.key", "-subj", "/CN=leaf", "-out", "leaf.csr")):
    must("openssl", *words)
write("root.toml", b'kind = "certificate"\nprofile = "root"\ncommon_name = "Root"\nstart = "2026-01-01T00:00:00Z"\ndays = 3650\nserial = "01"\n')
write("order.toml", b'kind = "certificate"\nprofile = "client"\ncommon_name = "A"\ndays = 90\n')
signed(must(shelf, "tbs", "root.toml", "ca.pub").stdout)
write("ca.pem", must(shelf, "seal", "root.toml", "ca.pub", "--signature", "m.sig").stdout)
write("ca.cnf", b"""[ca]
default_ca = a
[a]
database = index.txt
serial = serial
crlnumber = crlnumber
new_certs_dir = .
certificate = ca.pem
private_key = ca.key
default_md = sha256
default_days = 90
default_crl_days = 7
unique_subject = no
policy = p
[p]
commonName = supplied
""")
for count in counts:
    must(shelf, "register", "new", "a.db", "ca.pem")
    signed(must(shelf, "tbs", "order.toml", "leaf.pub", "--register", "a.db").stdout)
    must(shelf, "seal", "--register", "a.db", "--signature", "m.sig")
    fill("a.db", count)
    print(f"register, {count}: {os.path.getsize('a.db') / 1048576:.1f} MiB", flush=True)
    def serial(number):
        return "01" + number.to_bytes(15, "big").hex()

    def at(turn):
        return time.strftime("%Y-%m-%dT%H:%M:%SZ", time.gmtime(now - rounds + turn))

    told("find --serial", count, measured(lambda turn: (shelf, "find", "--register", "a.db", "--serial", serial(count - 1))))
    told("find", count, measured(lambda turn: (shelf, "find", "--register", "a.db")))
    told("tbs", count, measured(lambda turn: (shelf, "tbs", "order.toml", "leaf.pub", "--register", "a.db")))
    told("revoke", count, measured(lambda turn: (shelf, "revoke", "--register", "a.db", "--serial", serial(5 * turn + 1), "--reason", "superseded")))
    told("list", count, measured(lambda turn: (shelf, "list", "--register", "a.db", "--days", "7", "--time", at(turn))))
    index(count)
    write("serial", b"7F00\n")
    write("crlnumber", b"01\n")
    told("openssl ca", count, measured(lambda turn: ("openssl", "ca", "-config", "ca.cnf", "-batch", "-notext", "-in", "leaf.csr", "-out", "leaf.pem")))
    told("openssl ca -gencrl", count, measured(lambda turn: ("openssl", "ca", "-config", "ca.cnf", "-gencrl", "-out", "all.crl")))
    os.unlink("a.db")
