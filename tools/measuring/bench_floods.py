"""What a flood does to one honest client: the word floods of tools/measuring/bench-serve.

An honest client sends a submit_sm each millisecond through a proxy to a centre, 40 without an answer at most,
and beside it peers flood. Each trial has its own proxy, centres and addresses; the trials of a round, of each
kind and program, come in drawn order. The peers are tools/measuring/bench_floods.c. A submit_sm of a client
that floods isn't answered by the centre, so its share of the lane fills, and all further ones are answered 0x14
ESME_RMSGQFUL. Where a centre floods there is another beside it. What it answers waits behind its own flood in
the sockets, megabytes where it writes all that they take; with 32k it has two blocks of 16 KB ahead at most. By
the default limits, which hold there, a client's requests then fill its share of that lane, and the others go over
the other; with wide the limits are so wide that half of all wait. A peer that is silent has enquired once, or
until the answers wait in the proxy.

The table has medians of the rounds, the greatest latency of all, and the sums of what was bad or missing; what is
missing counts as that late. The ratio is the processor time a message to that without a flood. Links are closed
by the proxy, or reset by the flood; `answered with` is the status of the last answer to its first link. A trial takes
about two seconds more than `--seconds`.
"""

import contextlib
import random
import re
import select
import signal
import socket
import statistics
import subprocess
import sys
import time

from bench_running import Running, started

PROXY, CENTRE, EACH = 17775, 17001, 40
# Limits by which whoever floods keeps nobody's requests out.
WIDE = "queue = 4000\nwindow = 1000\nclient = 50\n"
STRANGERS = ("enquire_link", "unknown", "deliver_sm_resp", "generic_nack", "bind", "submit_sm", "large", "octets")
COUNTS = (1, 16, 64, 250)
BOUND = ("submit_sm", "deliver_sm_resp", "large")
CENTRES = ("deliver_sm", "deliver_sm_stray", "enquire_link", "submit_sm_resp")
# Each kind of flood, as role, how many, what, and whether they bind; or how many blocks a centre keeps ahead.
KINDS = {
    "none": None,
    **{f"strangers-{count}-{what}": ("flood", count, what) for what in STRANGERS for count in COUNTS},
    "resets-4": ("reset", 4),
    **{f"bound-16-{what}": ("flood", 16, what, "bound") for what in BOUND},
    **{f"centre-{what}": ("centre", 1, what) for what in CENTRES},
    **{f"centre-32k-{what}": ("centre", 1, what, 2) for what in CENTRES},
    **{f"centre-wide-{what}": ("centre", 1, what) for what in CENTRES},
    "silent-240-once": ("silent", 240, 1),
    "silent-240-clogged": ("silent", 240, 30000),
    "silent-240-bound": ("silent", 240, 30000, "bound"),
}
# The most ms of p50 and p99, and the most processor time a message as a ratio to that without a flood.
GOALS = {
    "strangers-250-": (2, 25, None),
    "bound-16-": (5, 50, None),
    "centre-wide-": None,
    "centre-": (2, None, None),
    "silent-240-": (None, None, 1.3),
}


class Failed(Exception):
    """A trial can't be made, as its program doesn't do what it should."""


class Peer(Running):
    """A process of bench_floods.c, which says that it is ready, takes lines and says its figures."""

    def __init__(self, *words):
        self.child = started([str(it) for it in words], stdout=subprocess.PIPE)
        try:
            if self.line(15) != "ready":
                raise Failed(f"{' '.join(self.child.args)} isn't ready")
        except BaseException:
            self.__exit__()
            raise

    def line(self, seconds):
        """What it says next, within so many seconds."""
        there = select.select([self.child.stdout], [], [], seconds)[0]
        return self.child.stdout.readline().decode().strip() if there else ""

    def tell(self):
        with contextlib.suppress(BrokenPipeError):
            self.child.stdin.write(b"\n")
            self.child.stdin.flush()

    def figures(self, seconds):
        return {name: float(number) for name, number in re.findall(r"(\w+) (-?\d+)", self.line(seconds))}


def own_network():
    """The first two numbers of loopback addresses that no other run has, and the socket that holds them."""
    for second in random.sample(range(16, 240), 100):
        holder = socket.socket()
        with contextlib.suppress(OSError):
            holder.bind((f"127.{second}.255.254", PROXY))
            return f"127.{second}", holder
        holder.close()
    raise SystemExit("bench-serve: no loopback addresses are free")


def config_of(folder, host, lanes, limits):
    """The file of a proxy with so many lanes, 256 clients, the honest one and those that flood, and these limits."""
    upstreams = "".join(
        f'[[upstream]]\naddress = "{host}.1:{CENTRE + at}"\nsystem_id = "proxy"\npassword = "pw"\n'
        for at in range(lanes)
    )
    path = f"{folder}/floods.toml"
    with open(path, "w") as file:
        file.write(
            f'listen = "{host}.1:{PROXY}"\nclients = 256\n'
            f"[limits]\n{limits}{upstreams}"
            '[[account]]\nsystem_id = "alpha"\npassword = "a1"\nprefixes = ["49"]\n'
            '[[account]]\nsystem_id = "flood"\npassword = "f1"\n'
        )
    return path


def used(proxy):
    """The processor time of a process in seconds, finer than /proc has it: clock_getcpuclockid's clock."""
    try:
        return time.clock_gettime(~proxy.child.pid << 3 | 2)
    except OSError:
        raise Failed("the proxy has ended")


def await_rest(proxy):
    """Waits until the proxy takes no more than a tenth of a processor, ten seconds at most."""
    for _ in range(50):
        before = used(proxy)
        time.sleep(0.2)
        if used(proxy) - before < 0.02:
            return


def begin(tool, host, kind, centres, enter):
    """Starts a flood, and gives its processes."""
    role, count, *what = KINDS[kind]
    place = (f"{host}.3", f"{host}.1", PROXY)
    if role == "centre":
        centres[0].tell()
        return [centres[0]]
    if role == "reset":
        return [enter(Peer(tool, "reset", *place)) for _ in range(count)]
    return [enter(Peer(tool, role, *place, count, *what))]


def trial(program, tool, folder, host, kind, seconds):
    """The honest client's figures beside a flood, with those of the flood."""
    role = KINDS[kind][0] if KINDS[kind] else ""
    lanes = [("1", *KINDS[kind][2:]), ("2",)] if role == "centre" else [("1",)]
    with contextlib.ExitStack() as stack:
        enter = stack.enter_context
        centres = [enter(Peer(tool, "centre", f"{host}.1", CENTRE + at, *words)) for at, words in enumerate(lanes)]
        limits = "" if role == "centre" and "-wide-" not in kind else WIDE
        file = config_of(folder, host, len(lanes), limits)
        proxy = enter(Running(program, "serve", file, listens="listening"))
        time.sleep(0.2)
        honest = enter(Peer(tool, "honest", f"{host}.2", f"{host}.1", PROXY, EACH, seconds))
        floods = begin(tool, host, kind, centres, enter) if role else []
        time.sleep(0.5)
        if role == "silent":
            await_rest(proxy)
        before = used(proxy)
        honest.tell()
        found = honest.figures(seconds + 10)
        found["cpu"] = (used(proxy) - before) * 1e6 / max(found.get("answered", 0), 1)
        for it in floods:
            it.tell()
        of_flood = [it.figures(10) for it in floods]
    found["octets"] = sum(it.get("octets", 0) for it in of_flood)
    found["closed"] = sum(it.get("closed", 0) for it in of_flood)
    found["told"] = max([it.get("told", -1) for it in of_flood], default=-1)
    return found


def summary(rows, base):
    """The medians of a kind's trials, the greatest latency and the sums of what went wrong; times in ms."""
    def median(name):
        return statistics.median(it.get(name, 0) for it in rows)

    found = {name: median(name) for name in ("answered", "cpu", "octets", "closed")}
    found.update({name: median(name) / 1000 for name in ("p500", "p990", "p501", "p991", "p502", "p992")})
    found["told"] = max(it.get("told", -1) for it in rows)
    found["most"] = max(it.get("most0", 0) for it in rows) / 1000
    found["bad"], found["missing"] = (sum(it.get(name, 1) for it in rows) for name in ("bad", "missing"))
    without = (base or found)["cpu"]
    found["ratio"] = found["cpu"] / without if without else float("inf")
    found["lanes"] = any(it.get("of2") for it in rows)
    return found


def verdict(kind, found):
    """Whether a kind keeps to its goals: on the lane that isn't flooded too, and with each request answered once."""
    goals = next((it for name, it in GOALS.items() if kind.startswith(name)), None)
    if not goals:
        return "-"
    figures = [(found["p500"], goals[0]), (found["p990"], goals[1]), (found["ratio"], goals[2])]
    if found["lanes"]:
        figures.append((found["p502"], goals[0]))
    well = all(goal is None or figure <= goal for figure, goal in figures)
    return "within" if well and found["answered"] and not found["bad"] and not found["missing"] else "beyond"


def shown(it):
    """A figure in three digits or more."""
    return f"{it:,.0f}" if it >= 100 else f"{it:.1f}" if it >= 10 else f"{it:.2f}"


def pair(found, lane):
    """Both quantiles of a lane, where there are two."""
    return f"{shown(found['p50' + lane])}, {shown(found['p99' + lane])}" if found["lanes"] else "-"


COLUMNS = {
    "p50 ms": lambda it: shown(it["p500"]),
    "p99 ms": lambda it: shown(it["p990"]),
    "greatest ms": lambda it: shown(it["most"]),
    "p50, p99 ms on the flooding lane": lambda it: pair(it, "1"),
    "on the other": lambda it: pair(it, "2"),
    "answered": lambda it: f"{it['answered']:,.0f}",
    "bad, missing": lambda it: f"{it['bad']:.0f}, {it['missing']:.0f}",
    "us of processor a message": lambda it: shown(it["cpu"]),
    "ratio": lambda it: shown(it["ratio"]),
    "flood MB/s": lambda it: shown(it["octets"] / 1e6),
    "links closed": lambda it: f"{it['closed']:,.0f}",
    "answered with": lambda it: f"0x{int(it['told']):02X}" if it["told"] >= 0 else "-",
}


def table(kinds, programs, found):
    """Prints a row for each kind that all programs were tried with, the figures of each side by side."""
    kinds = [it for it in kinds if it == "none" or all((it, program) in found for program in programs)]
    for number, it in enumerate(programs, 1) if len(programs) > 1 else ():
        print(f"program {number}: {it}")
    print("| Flood | " + " | ".join(COLUMNS) + " | goal |")
    print("|---" * (len(COLUMNS) + 2) + "|")
    bases = [summary(found.get(("none", it), [{}]), None) for it in programs]
    for kind in kinds:
        of = [summary(found.get((kind, it), [{}]), base) for it, base in zip(programs, bases)]
        cells = [" / ".join(map(show, of)) for show in COLUMNS.values()]
        goal = " / ".join(verdict(kind, it) for it in of)
        print(f"| {kind} | {' | '.join(cells)} | {goal} |", flush=True)


def attempt(program, tool, folder, host, kind, seconds):
    """A trial; where it can't be made nothing is found, which counts as missing."""
    try:
        return trial(program, tool, folder, host, kind, seconds)
    except Failed as why:
        print(f"bench-serve: {kind}, {program}: {why}", file=sys.stderr, flush=True)
        return {}


def floods(programs, tool, folder, rounds, seconds, picked):
    """Tries each kind with each program in each round, and prints the table, also where it is interrupted."""
    kinds = [it for it in KINDS if it == "none" or not picked or it.startswith(tuple(picked))]
    programs = list(dict.fromkeys(programs))
    for ending in (signal.SIGINT, signal.SIGTERM, signal.SIGHUP):
        signal.signal(ending, lambda *_: sys.exit("bench-serve: ended by a signal"))
    network, holder = own_network()
    found, number = {}, 0
    try:
        for at in range(rounds):
            trials = [(kind, program) for kind in kinds for program in programs]
            random.shuffle(trials)
            for kind, program in trials:
                number += 1
                print(f"round {at + 1} of {rounds}: {kind}", file=sys.stderr, flush=True)
                row = attempt(program, tool, folder, f"{network}.{number % 255}", kind, seconds)
                found.setdefault((kind, program), []).append(row)
    finally:
        holder.close()
        table(kinds, programs, found)
