"""What a service manager is told on standard output, in the words of sd_notify(3)."""

import subprocess
import threading
import time

from .peers import HOST, Centre, Proxy, free_port, text_of
from .smpp import PATIENCE

# Between two lines that say that the loop turns there are at most these seconds.
BEAT = 7


class Told:
    """The lines that come, each with its moment."""

    def __init__(self, stream):
        self.lines, self.stream = [], stream
        self.reader = threading.Thread(target=self.read, daemon=True)
        self.reader.start()

    def read(self):
        for line in self.stream:
            self.lines.append((time.monotonic(), line.decode().rstrip("\n")))

    def waits_for(self, words, patience=PATIENCE):
        end = time.monotonic() + patience
        while words not in (line for _, line in self.lines):
            assert time.monotonic() < end, f"no line {words!r}: {self.lines}"
            time.sleep(0.02)


def lines_for_a_service_manager(program, _):
    """READY once clients can connect, STATUS when somebody is bound or gone, WATCHDOG again and again, STOPPING."""
    port, words = free_port(), [program, "serve", "--notify"]
    with Centre() as centre:
        text = text_of(port, [f"{HOST}:{centre.port}"])
        with Proxy(program, port, text, words, stdout=subprocess.PIPE) as proxy:
            told = Told(proxy.child.stdout)
            told.waits_for("READY=1")
            told.waits_for("STATUS=0 of 1 upstreams bound, 0 clients")
            with centre.bound():
                told.waits_for("STATUS=1 of 1 upstreams bound, 0 clients")
                with proxy.client():
                    told.waits_for("STATUS=1 of 1 upstreams bound, 1 clients")
                told.waits_for("STATUS=1 of 1 upstreams bound, 0 clients")
                time.sleep(2 * BEAT)
                beats = [when for when, line in told.lines if line == "WATCHDOG=1"]
                assert len(beats) >= 3, told.lines
                assert all(after - before < BEAT for before, after in zip(beats, beats[1:])), beats
                assert proxy.stop() == 0
            told.reader.join(PATIENCE)
            assert "STOPPING=1" in [line for _, line in told.lines], told.lines
            assert proxy.said().partition("\n")[0].endswith(" info smx 0.2.0"), proxy.said()


def no_lines_without_the_word(program, _):
    """Without --notify nothing is written on standard output."""
    port = free_port()
    with Centre() as centre:
        text = text_of(port, [f"{HOST}:{centre.port}"])
        with Proxy(program, port, text, stdout=subprocess.PIPE) as proxy, centre.bound():
            proxy.waits_for("bound")
            assert proxy.stop() == 0
            assert proxy.child.stdout.read() == b""


CASES = {
    "lines for a service manager": lines_for_a_service_manager,
    "no lines without --notify": no_lines_without_the_word,
}
