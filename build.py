#!/usr/bin/env python3
"""Proves the crates of the program, and builds it. Usage: ./build.py [--tests]

With --tests it runs the tests of the trials, as CONTRIBUTING.md (The gate) says.

Crates that don't depend on one another are proved at the same time, as many as there are processors (as taskset leaves
them) and memory for. `rt` locks the crate that it works in, and the crates below. So each crate is proved in a folder
of its own, out/build/CRATE: a copy of the sources, with links to the results of the crates below. The kept proofs of
the crate are moved there and back. The prover's output for a crate is in out/build/CRATE.log.
"""
import fcntl
import os
import re
import shutil
import sys
import time

from tests import tree

PROGRAM = "bactool"
TRIALS = ["bac_trials", "tool_trials"]
ROOMS = "out/build"
CRATE_MEMORY = 2 << 30  # the memory for the proof of a crate, in octets
PROCESS_CODE = 9000  # octets of code for each process: each loads the proofs of the crates below anew
COST = """From nothing this takes 15 to 50 minutes of processor time, as fast as the machine is: 8 to 20 minutes of the
clock with four processors, longer with two. Memory: up to 2.5 GB for each crate at work. Disk: 3.2 GB, which are kept,
so that the next build proves only what has changed."""


def size(crate):
    """The octets of a crate's code: a measure of the time that its proof takes. Lemmas take little time."""
    return sum(map(os.path.getsize, tree.files(f"crates/{crate}/src/**")))


def longest_first(crates, below):
    """These crates, in the order in which they begin if all can: first those with the most code in themselves and in
    the heaviest chain of crates above."""
    weight = {}
    for crate in sorted(crates, key=lambda it: -len(below[it])):
        weight[crate] = size(crate) + max((weight[it] for it in weight if crate in below[it]), default=0)
    return sorted(crates, key=weight.get, reverse=True)


class Work(tree.Job):
    """A crate that is being proved in its folder."""

    def __init__(self, crate, below, jobs):
        self.crate, self.home, self.room = crate, f"crates/{crate}", f"{ROOMS}/{crate}"
        self.held = os.open(self.home, os.O_RDONLY)
        fcntl.flock(self.held, fcntl.LOCK_EX)  # as rt does, to make rt wait
        self.leave()  # a build that was killed may have left the room as it was
        os.makedirs(self.room)
        tree.copy_sources(self.room)
        for it in below:
            shutil.copytree(f"crates/{it}/out/rlib", f"{self.room}/crates/{it}/out/rlib", copy_function=os.link)
        if os.path.isdir(f"{self.home}/out"):
            os.rename(f"{self.home}/out", f"{self.room}/{self.home}/out")
        self.is_proved = crate != "tool_trials" or os.path.isfile(f"{self.room}/{self.home}/out/{crate}_tests")
        verb = "test" if crate in TRIALS else "run" if crate == PROGRAM else "lib"
        words = f"{verb} --jobs {jobs}" + " -- --help" * (verb == "run")
        command = f"rt {words}" if self.is_proved else "rt try --test --seconds 900"
        super().__init__(command.split(), f"{self.room}.log", cwd=f"{self.room}/{self.home}")

    def leave(self):
        if os.path.isdir(f"{self.room}/{self.home}/out"):
            shutil.rmtree(f"{self.home}/out", ignore_errors=True)
            os.rename(f"{self.room}/{self.home}/out", f"{self.home}/out")
        shutil.rmtree(self.room, ignore_errors=True)

    def came(self):
        """Returns the result of the process, once it has ended; "" if it failed."""
        tests = re.findall(r"^test result: ok\. ([1-9]\d*) passed; 0 failed", self.said(), re.M)
        told = f"{tests[-1]} tests passed{', not proved' * (not self.is_proved)}" if tests else "proved"
        return "" if self.process.returncode or (self.crate in TRIALS and not tests) else told

    def stop(self):
        super().stop()
        self.leave()
        os.close(self.held)


def build(crates, below, done):
    """Builds these crates, each once those below it are done. Returns the status: 1 if one was not proved."""
    began, left, working = time.monotonic(), longest_first(crates, below), []
    places = max(min(tree.processors(), tree.free_memory() // CRATE_MEMORY), 1)
    try:
        while left or working:
            ready = [it for it in left if below[it] <= done][: places - len(working)]
            large = sum(size(crate) > PROCESS_CODE for crate in [*ready, *(work.crate for work in working)])
            share = -(-tree.processors() // max(large, 1))
            for crate in ready:
                working.append(Work(crate, below[crate], max(min(share, size(crate) // PROCESS_CODE), 1)))
                left.remove(crate)
            time.sleep(0.5)
            clock = "{}:{:02}".format(*divmod(int(time.monotonic() - began), 60))
            for work in [it for it in working if it.has_ended()]:
                working.remove(work)
                work.stop()
                if not work.came():
                    what = "has a test that is not proved, or failed" if work.crate in TRIALS else "is not proved"
                    print(f"{work.crate} {what} ({clock}); the end of {work.log}:")
                    print("\n".join(work.said().splitlines()[-20:]))
                    return 1
                done = done | {work.crate}
                count = len(crates) - len(left) - len(working)
                print(f"{count:2} of {len(crates)}  {work.crate:12} {work.came()}  {clock}", flush=True)
        return 0
    finally:
        for work in working:
            work.stop()


def main(words):
    os.chdir(tree.TOP)
    if not shutil.which("rt"):
        sys.exit("This needs rt, of the Rattle kit, which is not in the PATH; README.md says where it comes from.")
    os.makedirs(ROOMS, exist_ok=True)
    below = {crate: rests_on - {crate} for crate, rests_on in tree.crates_below().items()}
    if words == ["--tests"]:
        return build(TRIALS, below, set(below) - set(TRIALS))
    crates = below[PROGRAM] | {PROGRAM}
    print(f"Proving {len(crates)} crates, the last of which is the program.", flush=True)
    if not all(os.path.isdir(f"crates/{crate}/out") for crate in crates):
        print(COST, flush=True)
    status = build(crates, below, set())
    if status == 0:
        os.utime(f"crates/{PROGRAM}/out/{PROGRAM}")  # make compares its time with those of the sources
    return status


tree.end_by_signals(main)
