"""`bench-serve soak`: full load for long, with clients that come and go, and, if rough, that are killed."""

import random
import re
import signal
import subprocess
import threading
import time

from bench_running import CENTRE, PROXY, Running, started

# A rough soak's clients: so many processes of so many clients, each with so many requests.
GROUPS, CLIENTS, REQUESTS = 8, 32, 4
# A second of a rough soak kills a group with this chance, whose clients come back a second later.
KILLS = 0.2
# How a line of the program begins.
LINE = re.compile(rb"\d{4}-\d\d-\d\dT\d\d:\d\d:\d\d\.\d{3}Z (debug|info|warn|error) [ -~]+\n")


def watch_memory(proxy, ended):
    """Says the proxy's memory after ten seconds, and then each minute, until that is so."""
    seconds = 10
    while not ended.wait(seconds):
        print(f"{proxy.megabytes():.1f} MB", flush=True)
        seconds = 60


def soak(program, tool, config, seconds, whole, timed):
    with Running(tool, "centre", str(CENTRE)), Running(program, "serve", config, listens="listening") as proxy:
        until = time.time() + seconds
        while time.time() < until:
            part = min(whole, max(until - time.time(), 1))
            ended = threading.Event()
            watch = threading.Thread(target=watch_memory, args=(proxy, ended))
            watch.start()
            rate, p50, p99, answered, bad, missing, cpu = timed(proxy, tool, PROXY, 256, 4, part)
            ended.set()
            watch.join()
            print(
                f"{rate:,} messages/s, answered {answered:,}, bad {bad}, missing {missing}, p50 {p50} us, "
                f"{cpu:.1f} us of processor a message, {proxy.megabytes():.1f} MB",
                flush=True,
            )


class Group:
    """Clients of one process, which come anew a second or more after a part, or after they were killed."""

    def __init__(self, tool, part, pause):
        self.words = [tool, "load", str(PROXY), str(CLIENTS), str(REQUESTS), str(part), "rough", str(pause)]
        self.sums = {"answered": 0, "refused": 0, "bad": 0, "missing": 0, "closed": 0}
        self.child, self.begins, self.kills, self.failures = None, time.time(), 0, 0

    def look(self):
        """Counts what it said where it has ended, and gives whether it is at work."""
        if self.child and self.child.poll() is not None:
            said = self.child.stdout.read().decode()
            self.failures += not said and self.child.returncode != -signal.SIGKILL
            for name in self.sums:
                found = re.search(rf"{name} (\d+)", said)
                self.sums[name] += int(found[1]) if found else 0
            self.child, self.begins = None, time.time() + 1
        return self.child is not None

    def begin(self):
        self.child = started(self.words, stdout=subprocess.PIPE, stderr=subprocess.DEVNULL)

    def kill(self):
        if self.child:
            self.child.kill()
            self.kills += 1


class Lines:
    """How many lines the program said, and the first that can't be read."""

    def __init__(self):
        self.count, self.strange = 0, None

    def heed(self, line):
        self.count += 1
        if not self.strange and not LINE.fullmatch(line):
            self.strange = line


def sum_of(groups, name):
    return sum(it.sums[name] for it in groups)


def counts(groups):
    """What clients that have ended were answered."""
    named = ", ".join(f"{name} {sum_of(groups, name):,}" for name in groups[0].sums)
    return f"{named}, {sum(it.failures for it in groups)} groups failed"


def minute(number, proxy, groups):
    """Says how it stands, and gives the memory, in MB."""
    megabytes = proxy.megabytes()
    print(
        f"minute {number}: {megabytes:.1f} MB, {proxy.descriptors()} descriptors, {proxy.seconds():.0f} s of processor, "
        f"{counts(groups)}",
        flush=True,
    )
    return megabytes


def verdict(groups, restarts, weights, left, lines):
    """Says what came of it, and whether something went wrong."""
    wrong = sum(sum_of(groups, name) for name in ("bad", "missing", "closed")) + sum(it.failures for it in groups)
    print(
        f"{counts(groups)}; {sum(it.kills for it in groups)} groups of {CLIENTS} clients killed, the centre {restarts} times; "
        f"{weights[-1]:.1f} MB at the end, {left} descriptors left, {lines.count:,} lines"
    )
    if lines.strange:
        print(f"a line that can't be read: {lines.strange!r}")
    rose = len(weights) > 5 and max(weights[5:]) > 1.1 * weights[4]
    if rose:
        print(f"memory rose from {weights[4]:.1f} MB at the fifth minute to {max(weights[5:]):.1f} MB")
    return bool(wrong or left > 0 or lines.strange or rose)


def rough_soak(program, tool, config, seconds, part, restart, pause):
    """Whether something went wrong, each line of which it says."""
    lines, weights, restarts = Lines(), [], 0
    groups = [Group(tool, part, pause) for _ in range(GROUPS)]
    centre = Running(tool, "centre", str(CENTRE))
    with Running(program, "serve", config, listens="listening", heed=lines.heed) as proxy:
        time.sleep(3)
        at_first, begun = proxy.descriptors(), time.time()
        while True:
            passed = time.time() - begun
            goes_on = passed < seconds
            at_work = [it.look() for it in groups]
            if not goes_on and not any(at_work):
                break
            due = [it for it in groups if not it.child and time.time() >= it.begins]
            if goes_on and due:
                # One a second, as half of the slots may be of clients that aren't bound.
                due[0].begin()
            if goes_on and random.random() < KILLS:
                random.choice(groups).kill()
            if goes_on and passed >= (restarts + 1) * restart:
                centre.__exit__()
                time.sleep(1)
                centre, restarts = Running(tool, "centre", str(CENTRE)), restarts + 1
            if passed >= (len(weights) + 1) * 60:
                weights.append(minute(len(weights) + 1, proxy, groups))
            time.sleep(1)
        weights.append(proxy.megabytes())
        time.sleep(5)
        left = proxy.descriptors() - at_first
    centre.__exit__()
    return verdict(groups, restarts, weights, left, lines)
