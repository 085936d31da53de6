#!/usr/bin/env python3
"""prove.py [--lanes N] [--chain N] [--runs] CRATE..: proves these crates and all below them, lowest first, as `rt ci` proves a crate.

`rt ci` proves the whole repository from nothing. This keeps what it proved: a crate is proved again only where its own text, a crate
below it or the toolchain has changed. It tries no must-fail edit and runs no test; with --runs it also runs each program that it builds,
and compares what that writes. It is for work in progress: the verdict is that of `rt ci`.

--lanes crates are proved side by side (2), and of the longest chain of crates each with --chain jobs (2). A line for each crate says when
it ended, how, and its processor seconds. Ends with 1 where a crate isn't proved or a program writes something else."""
import argparse
import copy
import hashlib
import importlib.machinery
import importlib.util
import os
import resource
import shutil
import subprocess
import sys
import tempfile
import time
from concurrent.futures import FIRST_COMPLETED, ThreadPoolExecutor, wait

sys.dont_write_bytecode = True


def gate():
    """The toolchain's own procedure."""
    path = os.path.join(os.path.dirname(os.path.realpath(shutil.which("rt"))), "rt")
    loader = importlib.machinery.SourceFileLoader("rt_gate", path)
    made = importlib.util.module_from_spec(importlib.util.spec_from_loader("rt_gate", loader))
    sys.modules["rt_gate"] = made
    loader.exec_module(made)
    return made


RT = gate()


def text_of(crate):
    """A digest of the crate's own text."""
    made = hashlib.sha256()
    for part in ("src", "specs", "proofs"):
        for at, folders, files in os.walk(f"{crate.folder}/{part}"):
            folders.sort()
            for name in sorted(files):
                with open(f"{at}/{name}", "rb") as it:
                    made.update(f"{os.path.relpath(at, crate.folder)}/{name}\0".encode() + hashlib.sha256(it.read()).digest())
    return made.hexdigest()


def digests(crates, version):
    """A digest of each crate with all that it is proved over."""
    own = {it.name: text_of(it) for it in crates}
    return {it.name: hashlib.sha256("\0".join([version, *sorted(f"{b.name} {own[b.name]}" for b in [it, *it.below()])]).encode()).hexdigest() for it in crates}


def is_kept(crate, digest):
    if not (crate.is_program or crate.is_static or os.path.isdir(f"{crate.folder}/out/rlib/{crate.name}.rlib")):
        return False
    try:
        with open(f"{crate.folder}/out/proved") as it:
            return it.read() == digest
    except OSError:
        return False


def prove(crate, digest, jobs, runs):
    crate = copy.copy(crate)
    started, kept = time.time(), f"{crate.folder}/out/proved"
    os.makedirs(f"{crate.folder}/out", exist_ok=True)
    if os.path.exists(kept):
        os.remove(kept)
    with tempfile.TemporaryFile("a+", errors="replace") as crate.out:
        try:
            status = crate.ci(["--jobs", str(jobs)], False)
        except SystemExit:
            status = 2
        crate.out.seek(0)
        said = crate.out.read()
    told = "NOT PROVED" if status else "proved"
    if not status and runs and crate.is_program:
        for ending in RT.BACKENDS.values():
            if os.path.isfile(f"{crate.folder}/out/{crate.name}{ending}") and not RT.run(crate, False, ending):
                status, told = 1, "proved, but its run differs"
    if status:
        print(f"== {crate.name}\n{said}", end="")
    else:
        with open(kept, "w") as it:
            it.write(digest)
    print(f"{time.strftime('%H:%M:%S')} {crate.name}: {told}, {time.time() - started:.0f} s with {jobs} jobs", flush=True)
    return not status


def main():
    takes = argparse.ArgumentParser(description=__doc__, formatter_class=argparse.RawDescriptionHelpFormatter)
    takes.add_argument("--lanes", type=int, default=2)
    takes.add_argument("--chain", type=int, default=2)
    takes.add_argument("--runs", action="store_true")
    takes.add_argument("crates", nargs="+")
    given = takes.parse_args()
    root = os.path.dirname(os.path.dirname(os.path.abspath(__file__)))
    os.chdir(root)
    RT.rtlib.stop = RT.stop
    RT.Crate.cuts_libraries = True
    RT.Crate.allowed = RT.handles_of(root)
    RT.rtlib.Crate = RT.Crate
    RT.rtlib.guarded()
    crates = sorted(RT.rtlib.crates_below(root), key=lambda it: len(it.below()))
    for it in crates:
        RT.read_files(it)
    wanted = {*given.crates}
    unknown = wanted - {it.name for it in crates}
    if unknown:
        takes.error(f"crates.txt has no crate {sorted(unknown)[0]}")
    for it in crates:
        if it.name in given.crates:
            wanted |= {below.name for below in it.below()}
    crates = [it for it in crates if it.name in wanted]
    version = subprocess.run(["rt", "version"], capture_output=True, text=True, check=True).stdout
    digest = digests(crates, version)
    # how many lines the longest chain has that begins with the crate
    chain = {it.name: it.count(rb"\n") for it in crates}
    for it in reversed(crates):
        for below in it.below():
            chain[below.name] = max(chain[below.name], below.count(rb"\n") + chain[it.name])
    done = {it.name: True for it in crates if is_kept(it, digest[it.name])}
    left = sorted((it for it in crates if it.name not in done), key=lambda it: -chain[it.name])
    print(f"{len(done)} crates are proved, {len(left)} are left: {' '.join(it.name for it in left)}", flush=True)
    running = {}
    with ThreadPoolExecutor(given.lanes) as pool:
        while left or running:
            for it in [it for it in left if all(below.name in done for below in it.below())]:
                if len(running) == given.lanes:
                    break
                left.remove(it)
                if is_kept(it, digest[it.name]):
                    done[it.name] = True
                    continue
                if not all(done[below.name] for below in it.below()):
                    done[it.name] = False
                    print(f"{it.name}: a crate below it isn't proved", flush=True)
                    continue
                others = [chain[name] for name in [*running.values(), *(it.name for it in left)]]
                jobs = given.chain if chain[it.name] >= max(others, default=0) else 1
                running[pool.submit(prove, it, digest[it.name], jobs, given.runs)] = it.name
            if running:
                for ended in wait(running, return_when=FIRST_COMPLETED).done:
                    done[running.pop(ended)] = ended.result()
    used = resource.getrusage(resource.RUSAGE_CHILDREN)
    print(f"{sum(done.values())} proved, {len(done) - sum(done.values())} not; {used.ru_utime + used.ru_stime:.0f} processor seconds")
    return not all(done.values())


sys.exit(main())
