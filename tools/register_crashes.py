#!/usr/bin/env python3
"""register_crashes.py SHELF FOLDER [POINTS]: what is left of a register when runs are killed, when many run at once and when the disk is full.

SHELF is the program, and FOLDER may not be there yet. At POINTS random moments (1000) a run of tbs, seal, revoke, list, renew or find is killed by
SIGKILL. Then eight run at once, and last a disk of 1 MiB fills (a tmpfs, where one may be mounted, else a limit on the size of files). After each
`register check` says ok, and so does sqlite's `pragma integrity_check` of a copy; what was printed is in the register, octet for octet; and no
serial number and no list number is there twice. OpenSSL signs. A line a part; the status is 0 where all holds. SEED=1 repeats a session."""
import os, random, resource, shutil, signal, sqlite3, subprocess, sys, time

if len(sys.argv) not in (3, 4) or os.path.exists(sys.argv[2]):
    sys.exit("register_crashes.py SHELF FOLDER [POINTS], where FOLDER isn't there yet")
if not shutil.which("openssl"):
    print("register_crashes: there is no openssl, nothing was tried")
    sys.exit(0)
shelf = os.path.realpath(sys.argv[1])
os.makedirs(sys.argv[2])
os.chdir(sys.argv[2])
points = int(sys.argv[3]) if len(sys.argv) == 4 else 1000
seed = int(os.environ.get("SEED", time.time()))
chance = random.Random(seed)


def run(*words, **more):
    return subprocess.run(words, stdin=subprocess.DEVNULL, capture_output=True, **more)


def must(*words):
    done = run(*words)
    if done.returncode:
        sys.exit(f"register_crashes: {' '.join(words)}: {done.stderr.decode()}")
    return done


def openssl(*words):
    return must("openssl", *words)


def write(name, octets):
    with open(name, "wb") as file:
        file.write(octets)


def signed(message):
    write("m.tbs", message)
    openssl("pkeyutl", "-sign", "-rawin", "-inkey", "ca.key", "-in", "m.tbs", "-out", "m.sig")


def serial_in(complaint):
    for line in complaint.decode().splitlines():
        if line.startswith("serial: "):
            return line.split(": ")[1]


def rows(register, question):
    """What sqlite answers of a copy, so that the register's own program recovers the log."""
    for end in ("", "-wal"):
        if os.path.exists("copy.db" + end):
            os.unlink("copy.db" + end)
        if os.path.exists(register + end):
            shutil.copy(register + end, "copy.db" + end)
    base = sqlite3.connect("copy.db")
    try:
        return base.execute(question).fetchall()
    finally:
        base.close()


def checked(register, after, printed):
    """Stops where the register isn't as it has to be."""
    faults = []
    if rows(register, "pragma integrity_check") != [("ok",)]:
        faults.append("sqlite finds it damaged")
    done = run(shelf, "register", "check", register)
    if done.returncode or not done.stdout.startswith(b"ok\n"):
        faults.append(f"register check: status {done.returncode}, {done.stderr.decode()}")
    for kind, column in ((2, "serial"), (7, "number")):
        total, distinct = rows(register, f"select count(*), count(distinct {column}) from event where kind = {kind}")[0]
        if total != distinct:
            faults.append(f"{total - distinct} of {column} are there twice")
    kept = dict(rows(register, "select lower(hex(serial)), body from event where kind = 2"))
    for serial, message in printed["messages"].items():
        if not kept.get(serial, b"").startswith(message):
            faults.append(f"the message of {serial} was printed and isn't kept")
    kept = dict(rows(register, "select lower(hex(serial)), body from event where kind = 3"))
    for serial, octets in printed["octets"].items():
        if not kept.get(serial, b"").startswith(octets):
            faults.append(f"the octets of {serial} were printed and aren't kept")
    revoked = {row[0] for row in rows(register, "select lower(hex(serial)) from event where kind = 4")}
    for serial in printed["revoked"] - revoked:
        faults.append(f"the revocation of {serial} was told and isn't kept")
    if faults:
        sys.exit(f"register_crashes: after {after} (SEED={seed}): " + "; ".join(faults))


def noted(words, serial, out, complaint, printed):
    """Takes down what a run printed."""
    if words[0] in ("tbs", "renew") and out:
        printed["messages"][serial_in(complaint)] = out
    if words[0] == "seal" and serial and out:
        printed["octets"][serial] = out
    if words[0] == "revoke" and (b": revoked" in complaint or b": on hold" in complaint) and complaint.endswith(b"\n"):
        printed["revoked"].add(serial)


def choice(register):
    """The words of a run that does something, and the serial number that it is about."""
    pending = [row[0] for row in rows(register, "select lower(hex(serial)) from event where kind = 2 and serial not in (select serial from event where kind = 3)")]
    valid = [row[0] for row in rows(register, "select lower(hex(serial)) from event where kind = 3 and serial not in (select serial from event where kind = 4)")]
    held = [row[0] for row in rows(register, "select lower(hex(serial)) from event where kind = 4 and detail = 6 and serial not in (select serial from event where kind in (5, 6))")]
    what = chance.choice(["tbs", "tbs", "seal", "seal", "seal", "revoke", "hold", "release", "final", "list", "seal-list", "renew", "find"])
    if what == "seal" and pending:
        serial = chance.choice(pending)
        signed(rows(register, f"select body from event where kind = 2 and lower(hex(serial)) = '{serial}'")[0][0])
        return ["seal", "--serial", serial, "--signature", "m.sig", "--der"], serial
    if what in ("revoke", "hold") and len(valid) > 5:
        serial = chance.choice(valid)
        return ["revoke", "--serial", serial, "--reason", "superseded" if what == "revoke" else "certificateHold"], serial
    if what in ("release", "final") and held:
        serial = chance.choice(held)
        return ["revoke", "--serial", serial, "--reason", "removeFromCRL" if what == "release" else "superseded"], serial
    if what == "find":
        return ["find", "--json"], None
    if what == "renew" and valid:
        return ["renew", "--serial", chance.choice(valid)], None
    if what == "list":
        return ["list", "--days", "7"], None
    if what == "seal-list":
        last = rows(register, "select body from event where kind = 7 order by id desc limit 1")
        if last:
            signed(last[0][0])
            return ["seal", "--list", "--signature", "m.sig", "--der"], None
    return ["tbs", "order.toml", "leaf.pub"], None


def killed(register, printed):
    began = time.monotonic()
    must(shelf, "register", "check", register)
    longest = time.monotonic() - began
    ended = 0
    for point in range(points):
        words, serial = choice(register)
        began = time.monotonic()
        running = subprocess.Popen([shelf, *words, "--register", register], stdin=subprocess.DEVNULL, stdout=subprocess.PIPE, stderr=subprocess.PIPE)
        try:
            out, complaint = running.communicate(timeout=chance.uniform(0, 1.2 * longest))
            longest = max(time.monotonic() - began, 0.9 * longest)
            ended += 1
        except subprocess.TimeoutExpired:
            running.send_signal(signal.SIGKILL)
            out, complaint = running.communicate()
            longest = min(1.01 * longest, 30)
        noted(words, serial, out, complaint, printed)
        checked(register, f"kill {point} of {words[0]}", printed)
    print(f"{points} runs, {points - ended} killed: each check is ok")


def together(register, printed):
    refused = 0
    for turn in range(10):
        runs = [subprocess.Popen([shelf, "tbs", "order.toml", "leaf.pub", "--register", register], stdin=subprocess.DEVNULL, stdout=subprocess.PIPE, stderr=subprocess.PIPE) for _ in range(8)]
        for running in runs:
            out, complaint = running.communicate()
            if running.returncode == 0:
                noted(["tbs"], None, out, complaint, printed)
            elif b"in use" in complaint:
                refused += 1
            else:
                sys.exit(f"register_crashes: one of eight: status {running.returncode}, {complaint.decode()}")
        checked(register, "eight at once", printed)
    print(f"80 runs, eight at once: {refused} were told that it is in use, each check is ok")


def small_disk():
    os.mkdir("disk")
    return run("mount", "-t", "tmpfs", "-o", "size=1m", "tmpfs", "disk").returncode == 0


def limited():
    signal.signal(signal.SIGXFSZ, signal.SIG_IGN)
    resource.setrlimit(resource.RLIMIT_FSIZE, (1 << 20, 1 << 20))


def full(printed):
    is_mounted = small_disk()
    register = "disk/full.db"
    try:
        must(shelf, "register", "new", register, "ca.pem")
        failed = 0
        for turn in range(5000):
            done = run(shelf, "tbs", "order.toml", "leaf.pub", "--register", register, preexec_fn=None if is_mounted else limited)
            if done.returncode == 0:
                noted(["tbs"], None, done.stdout, done.stderr, printed)
            else:
                if done.stdout:
                    sys.exit("register_crashes: a full disk: a message was printed that isn't kept")
                failed += 1
            if turn % 20 == 0 or done.returncode:
                if is_mounted and done.returncode:
                    # What the check itself needs is room elsewhere.
                    shutil.copy(register, "moved.db")
                    if os.path.exists(register + "-wal"):
                        shutil.copy(register + "-wal", "moved.db-wal")
                    checked("moved.db", "a full disk", printed)
                else:
                    checked(register, "a full disk", printed)
            if failed == 5:
                break
        count = len(printed["messages"])
        print(f"a disk of 1 MiB: {count} messages, then {failed} refusals: each check is ok")
    finally:
        if is_mounted:
            run("umount", "disk")


def nothing():
    return {"messages": {}, "octets": {}, "revoked": set()}


openssl("genpkey", "-algorithm", "EC", "-pkeyopt", "ec_paramgen_curve:P-256", "-out", "ca.key")
openssl("pkey", "-in", "ca.key", "-pubout", "-out", "ca.pub")
openssl("genpkey", "-algorithm", "ed25519", "-out", "leaf.key")
openssl("pkey", "-in", "leaf.key", "-pubout", "-out", "leaf.pub")
write("root.toml", b'kind = "certificate"\nprofile = "root"\ncommon_name = "Root"\nstart = "2026-01-01T00:00:00Z"\ndays = 3650\nserial = "01"\n')
write("order.toml", b'kind = "certificate"\nprofile = "client"\ncommon_name = "A"\ndays = 90\n')
signed(must(shelf, "tbs", "root.toml", "ca.pub").stdout)
write("ca.pem", must(shelf, "seal", "root.toml", "ca.pub", "--signature", "m.sig").stdout)
must(shelf, "register", "new", "a.db", "ca.pem")
printed = nothing()
killed("a.db", printed)
together("a.db", printed)
full(nothing())
