"""The proxy under test, as a process, with message centres and clients of ours around it."""

import contextlib
import os
import pathlib
import random
import socket
import subprocess
import tempfile
import threading
import time

from .smpp import BIND_TRANSCEIVER, OK, PATIENCE, RESPONSE, Gone, Link, bind_of, response

# A process that runs cases has a host of its own, so that no port of one is one of another's.
HOST = "127.{}.{}.{}".format(1 + (os.getpid() >> 16) % 250, os.getpid() >> 8 & 255, os.getpid() & 255)
# The option of a socket whose port the system chooses as it connects (ip(7)), so that no two peers share a pool.
BIND_ADDRESS_NO_PORT = 24


def free_port():
    """A port at which nobody listens, of those that the system gives to no connection by itself."""
    while True:
        port = random.randrange(10_000, 32_000)
        with socket.socket() as it, contextlib.suppress(OSError):
            it.bind((HOST, port))
            return port


class Centre:
    """A message centre that listens, and whose links are told by the test."""

    def __init__(self, room=None, port=0):
        self.listener = socket.socket()
        self.listener.setsockopt(socket.SOL_SOCKET, socket.SO_REUSEADDR, 1)
        if room:
            self.listener.setsockopt(socket.SOL_SOCKET, socket.SO_RCVBUF, room)
        self.listener.bind((HOST, port))
        self.listener.listen()
        self.listener.settimeout(PATIENCE)
        self.port = self.listener.getsockname()[1]

    def __enter__(self):
        return self

    def __exit__(self, *_):
        self.listener.close()

    def binding(self):
        """The proxy's next connection, which has sent its bind, and the bind."""
        stream, _ = self.listener.accept()
        link = Link(stream)
        pdu = link.hear()
        assert pdu.command == BIND_TRANSCEIVER, f"{pdu} in place of a bind"
        return link, pdu

    def bound(self):
        """The proxy's next connection, whose bind is answered."""
        link, pdu = self.binding()
        link.say(response(pdu, body=b"centre\0"))
        return link


class Answering(Centre):
    """A centre that answers each request of each connection, in threads of its own."""

    accepted = 0

    def __enter__(self):
        threading.Thread(target=self.accept, daemon=True).start()
        return self

    def accept(self):
        with contextlib.suppress(OSError):
            while True:
                stream, _ = self.listener.accept()
                self.accepted += 1
                threading.Thread(target=self.answer, args=(Link(stream),), daemon=True).start()

    @staticmethod
    def answer(link):
        with contextlib.suppress(Gone, OSError):
            while True:
                pdu = link.hear(24 * 3600)
                if not pdu.command & RESPONSE:
                    link.say(response(pdu, body=b"centre\0"))


def upstream(address):
    return f'[[upstream]]\naddress = "{address}"\nsystem_id = "proxy"\npassword = "pw"\n'


def account(name, prefix):
    return f'[[account]]\nsystem_id = "{name}"\npassword = "secret"\nprefixes = ["{prefix}"]\n'


def text_of(port, addresses, accounts=(("alpha", "49"),), limits="", keys=""):
    """A configuration."""
    tables = "".join(map(upstream, addresses)) + "".join(account(*it) for it in accounts)
    return f'listen = "{HOST}:{port}"\n{keys}\n[limits]\n{limits}\n{tables}'


class Proxy:
    """A proxy that serves this configuration, until the block ends."""

    def __init__(self, program, port, text, words=None, **how):
        self.port, self.folder = port, tempfile.TemporaryDirectory(prefix="smx-serve-")
        self.file = pathlib.Path(self.folder.name) / "smx.toml"
        self.file.write_text(text)
        # (appended to, as the child writes by this very description, which a read of ours moves)
        self.log = open(f"{self.folder.name}/log", "a+b")
        how = {"stdin": subprocess.PIPE, "stderr": self.log, "stdout": subprocess.DEVNULL, **how}
        self.child = subprocess.Popen([*(words or [program, "serve"]), str(self.file)], **how)

    def __enter__(self):
        end = time.monotonic() + PATIENCE
        while time.monotonic() < end and self.child.poll() is None:
            with contextlib.suppress(OSError), socket.create_connection((HOST, self.port), 1):
                return self
            time.sleep(0.02)
        self.__exit__()
        raise AssertionError(f"the proxy doesn't listen: {self.said()}")

    def __exit__(self, *_):
        if self.child.poll() is None:
            self.child.kill()
            self.child.wait()
        if self.child.stdin:
            self.child.stdin.close()

    def said(self):
        """What it wrote on standard error."""
        self.log.seek(0)
        return self.log.read().decode(errors="replace")

    def waits_for(self, words):
        """Waits until a line has these words."""
        self.waits_for_more(words, 0)

    def waits_for_more(self, words, count):
        """Waits until these words are there more often than this."""
        end = time.monotonic() + PATIENCE
        while self.said().count(words) <= count:
            assert time.monotonic() < end, f"no line says {words!r}: {self.said()}"
            time.sleep(0.02)

    def asks(self, word):
        """Says a line on its standard input."""
        self.child.stdin.write(f"{word}\n".encode())
        self.child.stdin.flush()

    def stop(self):
        """Stops it by a line, and gives its status."""
        self.asks("stop")
        return self.child.wait(PATIENCE)

    def connect(self, source="127.0.0.1"):
        stream = socket.socket()
        stream.setsockopt(socket.IPPROTO_IP, BIND_ADDRESS_NO_PORT, 1)
        stream.settimeout(PATIENCE)
        stream.bind((source, 0))
        stream.connect((HOST, self.port))
        return Link(stream)

    def client(self, name="alpha"):
        """A client that is bound as transceiver."""
        link = self.connect()
        answer = link.ask(bind_of(name, "secret"))
        assert answer.status == OK, f"the bind of {name} was answered {answer.status:#x}"
        return link


@contextlib.contextmanager
def one_lane(program, keys="", limits=""):
    """A centre that is told by the test, and a proxy with one lane, which leads there."""
    port = free_port()
    with Centre() as centre:
        text = text_of(port, [f"{HOST}:{centre.port}"], keys=keys, limits=limits)
        with Proxy(program, port, text) as proxy:
            yield centre, proxy


def state_of(process):
    """The state of a process as the system has it: R, S, T (stopped), ..."""
    return pathlib.Path(f"/proc/{process}/stat").read_text().rpartition(")")[2].split()[0]


def is_free(port):
    """Whether nobody listens at a port any more, once the system has had a while."""
    end = time.monotonic() + 10
    while time.monotonic() < end:
        with socket.socket() as it:
            if it.connect_ex((HOST, port)):
                return True
        time.sleep(0.05)
    return False
