"""The programs that tools/measuring/bench-serve starts and ends."""

import ctypes
import os
import re
import signal
import subprocess
import threading
import time

TICKS = os.sysconf("SC_CLK_TCK")
CENTRE, PROXY = 17001, 17775
LIBC = ctypes.CDLL(None)
PR_SET_PDEATHSIG = 1
LISTENS = "0A"


def started(words, processors=None, **pipes):
    """A process that the system kills when this one has ended, however it ended. It runs on these processors alone,
    where they are said."""

    def begin():
        LIBC.prctl(PR_SET_PDEATHSIG, signal.SIGKILL)
        if processors:
            os.sched_setaffinity(0, processors)

    return subprocess.Popen(words, stdin=subprocess.PIPE, preexec_fn=begin, **pipes)


def until_listened(port, seconds=10):
    """Waits until somebody listens at the port, as the system tells: nobody is called for it."""
    end = time.monotonic() + seconds
    while time.monotonic() < end:
        with open("/proc/net/tcp") as file:
            if any(row[1].endswith(f":{port:04X}") and row[3] == LISTENS for row in map(str.split, file)):
                return
        time.sleep(0.01)
    raise SystemExit(f"bench-serve: nobody listens at port {port}")


class Running:
    """A program of ours, ended with the block."""

    def __init__(self, *words, listens=None, heed=None, processors=None):
        self.heed = heed
        self.child = started(words, processors, stdout=subprocess.DEVNULL, stderr=subprocess.PIPE)
        if listens:
            for line in self.child.stderr:
                if listens in line.decode():
                    threading.Thread(target=self.drain, daemon=True).start()
                    return
            raise SystemExit(f"bench-serve: {words[0]} doesn't serve")
        time.sleep(0.3)

    def drain(self):
        """Reads what it says from now on, and hands over each line where somebody wants it."""
        for line in self.child.stderr:
            if self.heed:
                self.heed(line)

    def __enter__(self):
        return self

    def __exit__(self, *_):
        self.child.kill()
        self.child.wait()

    def seconds(self):
        with open(f"/proc/{self.child.pid}/stat") as file:
            fields = file.read().rsplit(")", 1)[1].split()
        return (int(fields[11]) + int(fields[12])) / TICKS

    def descriptors(self):
        return len(os.listdir(f"/proc/{self.child.pid}/fd"))

    def megabytes(self):
        with open(f"/proc/{self.child.pid}/status") as file:
            return int(re.search(r"VmRSS:\s+(\d+)", file.read())[1]) / 1000
