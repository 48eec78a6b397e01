"""The program as a process: its names, lines, terminal and signals, `demo` and `relay` beside it."""

import contextlib
import fcntl
import os
import pathlib
import pty
import resource
import signal
import socket
import subprocess
import sys
import tempfile
import time

from .coming import are_answered
from .peers import HOST, Answering, Proxy, free_port, is_free, state_of, text_of
from .smpp import PATIENCE, bind_of

TOP = pathlib.Path(__file__).resolve().parent.parent.parent.parent
RESOLVER = "127.0.0.1"
# What a script may reserve, in KB.
GIGABYTE = 1_000_000


class LeftOut(Exception):
    """The machine doesn't allow this case."""


def a_resolver_that_is_silent(program, _):
    """While a name is looked up the other upstream is bound and a client is served."""
    with socket.socket(socket.AF_INET, socket.SOCK_DGRAM) as resolver:
        resolver.bind((RESOLVER, 53))
        port = free_port()
        with Answering() as centre:
            text = text_of(port, ["smsc.example.org:2775", f"{HOST}:{centre.port}"])
            began = time.monotonic()
            with Proxy(program, port, text) as proxy, proxy.client() as link:
                are_answered(link, 8)
                took = time.monotonic() - began
                resolver.settimeout(PATIENCE)
                assert resolver.recv(512), "the resolver was never asked"
                assert took < 4.5, f"served after {took:.1f} seconds"


def in_a_namespace(program, clients):
    """The same, where that resolver's port is ours and /etc/resolv.conf names it: in namespaces of its own."""
    words = ["unshare", "--mount", "--net", *([] if os.geteuid() == 0 else ["--user", "--map-root-user"])]
    if subprocess.run([*words, "true"], capture_output=True).returncode:
        raise LeftOut("no namespaces can be made here")
    with tempfile.NamedTemporaryFile("w") as names:
        names.write(f"nameserver {RESOLVER}\noptions timeout:5 attempts:2\n")
        names.flush()
        script = f"mount --bind {names.name} /etc/resolv.conf; ip link set lo up; exec \"$@\""
        inside = [sys.executable, TOP / "tools" / "gate" / "try-serve", "--program", program, "--inside"]
        if subprocess.run([*words, "sh", "-ec", script.replace('exec "$@"', "true")], capture_output=True).returncode:
            raise LeftOut("no /etc/resolv.conf can be put in place here")
        ran = subprocess.run([*words, "sh", "-ec", script, "sh", *inside], capture_output=True, text=True)
        assert ran.returncode == 0, ran.stdout + ran.stderr


def nobody_reads_the_lines(program, _):
    """3,000 binds are refused while standard error is a full pipe that nobody reads, and a client is served."""
    read_end, write_end = os.pipe()
    fcntl.fcntl(write_end, fcntl.F_SETPIPE_SZ, 4096)
    os.set_blocking(write_end, False)
    with contextlib.suppress(BlockingIOError):
        while True:
            os.write(write_end, b".")
    os.set_blocking(write_end, True)
    port = free_port()
    with Answering() as centre:
        text = text_of(port, [f"{HOST}:{centre.port}"])
        with Proxy(program, port, text, stderr=write_end) as proxy:
            for _ in range(3_000):
                with proxy.connect() as link:
                    assert link.ask(bind_of("alpha", "wrong")).status == 0x0E
            with proxy.client() as link:
                are_answered(link, 8)
            began = time.monotonic()
            assert proxy.stop() == 0
            assert time.monotonic() - began < 10, "a stop waits for who reads the lines"
    os.close(write_end)
    os.close(read_end)


def at_a_terminal_in_the_background(program, _):
    """The program reads no terminal, so one in its background isn't stopped by it."""
    port, (leader, terminal) = free_port(), pty.openpty()
    # (a shell with job control, whose background has a process group of its own)
    shell = ["setsid", "--ctty", "sh", "-mc", '"$@" & wait', "sh", program, "serve"]
    with Answering() as centre:
        text = text_of(port, [f"{HOST}:{centre.port}"])
        with Proxy(program, port, text, shell, stdin=terminal) as proxy:
            served = int(subprocess.run(["pgrep", "-P", str(proxy.child.pid)], capture_output=True).stdout)
            try:
                os.write(leader, b"stop\n")
                with proxy.client() as link:
                    are_answered(link, 8)
                assert state_of(served) in "SR", f"its state is {state_of(served)}"
            finally:
                os.kill(served, signal.SIGKILL)
    os.close(leader)
    os.close(terminal)


def ends_at(number, words_of, send=os.kill):
    """A case: a signal to the script that runs the program, or to their group, ends both in order."""
    def case(program, _):
        words, more, port = words_of(program), {"SMX": str(program)}, free_port()
        with Answering() as centre:
            text = text_of(port, [f"{HOST}:{centre.port}"])
            how = {"stdin": subprocess.DEVNULL, "env": {**os.environ, **more}, "start_new_session": True}
            with Proxy(program, port, text, words, **how) as proxy, proxy.client():
                send(proxy.child.pid, number)
                assert proxy.child.wait(PATIENCE) == 0, proxy.said()
                assert is_free(port), "the proxy was left on its port"
                assert "unbound" in proxy.said(), proxy.said()
    return case


def runs_on_at(words_of, send=os.kill):
    """A case: SIGHUP and SIGUSR1 to the script that runs the program, or to their group, end nothing."""
    def case(program, _):
        port = free_port()
        with Answering() as centre:
            text = text_of(port, [f"{HOST}:{centre.port}"])
            how = {"stdin": subprocess.DEVNULL, "env": {**os.environ, "SMX": str(program)}, "start_new_session": True}
            with Proxy(program, port, text, words_of(program), **how) as proxy, proxy.client() as link:
                for number in (signal.SIGHUP, signal.SIGUSR1, signal.SIGHUP):
                    send(proxy.child.pid, number)
                    are_answered(link, 4)
                proxy.child.terminate()
                assert proxy.child.wait(PATIENCE) == 0, proxy.said()
                assert "unbound" in proxy.said(), proxy.said()
    return case


# A program that says each line of its input as its state, and one that writes down what systemd is told.
TELLING = """#!/bin/sh
[ "$1" = serve ] || exit 0
case $2 in
--help) echo "$HELP"; exit 0 ;;
--notify) echo READY=1; echo WATCHDOG=1 ;;
esac
while read -r line; do
    [ "$2" != --notify ] || echo "STATUS=$line"
    [ "$line" != stop ] || exit 0
done
"""
NOTING = """#!/bin/sh
echo "$*" >>"$NOTES"
"""


def what_systemd_is_told(_, __):
    """Each line that the program says for it, and of a program that says none that it has started."""
    with tempfile.TemporaryDirectory() as folder:
        room = pathlib.Path(folder)
        for name, text in (("smx", TELLING), ("systemd-notify", NOTING)):
            (room / name).write_text(text)
            (room / name).chmod(0o755)
        for words, first in (("--notify", ["READY=1", "WATCHDOG=1"]), ("", ["--ready WATCHDOG_USEC=0"])):
            notes = room / f"notes{words}"
            notes.touch()
            more = {"SMX": str(room / "smx"), "HELP": words, "NOTES": str(notes), "NOTIFY_SOCKET": "none",
                    "WATCHDOG_USEC": "1", "PATH": f"{folder}:{os.environ['PATH']}"}
            how = {"env": {**os.environ, **more}, "stdin": subprocess.DEVNULL}
            with subprocess.Popen([*service(None), "any"], **how) as child:
                comes(lambda: notes.read_text().splitlines() == first, notes.read_text)
                for number, line in ((signal.SIGUSR1, "status"), (signal.SIGHUP, "reload")) if words else ():
                    # (again, since one that comes before the script's own trap stands is lost)
                    comes(lambda: child.send_signal(number) or f"STATUS={line}" in notes.read_text(), notes.read_text)
                child.terminate()
                assert child.wait(PATIENCE) == 0
            assert not words or notes.read_text().splitlines()[-1] == "STATUS=stop", notes.read_text()


def comes(is_so, found):
    """Waits until this is so."""
    end = time.monotonic() + PATIENCE
    while not is_so():
        assert time.monotonic() < end, found()
        time.sleep(0.02)


def closed_streams(words_of):
    """A case: where the standard streams are closed, no socket and no event of the program takes their place."""
    def case(program, _):
        words, port = ["sh", "-c", 'exec "$@" <&- >&- 2>&-', "sh", *words_of(program)], free_port()
        with Answering() as centre:
            text = text_of(port, [f"{HOST}:{centre.port}"])
            how = {"stdin": subprocess.DEVNULL, "env": {**os.environ, "SMX": str(program)}}
            with Proxy(program, port, text, words, **how) as proxy, proxy.client() as link:
                are_answered(link, 4)
                served = pathlib.Path(f"/proc/{proxy.child.pid}/task/{proxy.child.pid}/children").read_text().split()
                found = [os.readlink(f"/proc/{it}/fd/{stream}") for it in served for stream in (1, 2)]
                assert found and set(found) == {"/dev/null"}, found
                proxy.child.terminate()
                assert proxy.child.wait(PATIENCE) == 0
    return case


def early_signals_to_smx_serve(program, _):
    """Whenever a signal comes to the group, it ends in order and leaves no FIFO."""
    with tempfile.TemporaryDirectory() as folder:
        file, room = pathlib.Path(folder) / "smx.toml", pathlib.Path(folder) / "room"
        file.write_text(text_of(free_port(), [f"{HOST}:9"]))
        room.mkdir()
        how = {"env": {**os.environ, "SMX": str(program), "TMPDIR": str(room)}, "start_new_session": True}
        # (a script of the shell before, whose traps stand once its first line is said)
        words = ["/bin/sh", "-c", 'trap : TERM; echo; . "$0"', *service(program), str(file)]
        for after in (0, 1, 2, 4, 6, 8, 10, 12, 14, 16, 20, 30, 50, 100):
            with subprocess.Popen(words, stdout=subprocess.PIPE, stderr=subprocess.DEVNULL, **how) as child:
                child.stdout.readline()
                time.sleep(after / 1000)
                os.killpg(child.pid, signal.SIGTERM)
                with contextlib.suppress(subprocess.TimeoutExpired):
                    child.wait(1)
                # One that came before the script's own trap was set is lost on it.
                if child.poll() is None:
                    os.killpg(child.pid, signal.SIGTERM)
                assert child.wait(PATIENCE) == 0, f"{after} ms: {child.returncode}"
            assert not [*room.iterdir()], f"{after} ms: left are {[*room.iterdir()]}"


def faults_of_smx_serve(program, _):
    """A file at fault is called by the name given, and the status is 78, of the program alone too."""
    with tempfile.TemporaryDirectory() as folder:
        file = pathlib.Path(folder) / "smx.toml"
        file.write_text('listen = "127.0.0.1:2775"\n')
        for of, words in ((file, "/etc/smx/smx.toml: upstream"), (f"{folder}/none", "/etc/smx/smx.toml: No such file")):
            ran = subprocess.run([*service(program), of, "/etc/smx/smx.toml"], capture_output=True, text=True,
                                 env={**os.environ, "SMX": str(program)}, timeout=PATIENCE)
            assert ran.returncode == 78 and ran.stderr.startswith(words), ran
            words = [program, "serve", of]
            alone = subprocess.run(words, stdin=subprocess.DEVNULL, capture_output=True, timeout=PATIENCE)
            assert alone.returncode == 78, alone


def service(_):
    return [TOP / "packaging" / "smx-serve"]


def script(program):
    if TOP / "crates" / "smx" / "out" / "smx" != program:
        raise LeftOut("./smx runs another program")
    return [TOP / "smx", "serve"]


def demo_beside_a_proxy(program, _):
    """`demo` of a file whose proxy is running prints its lines, and opens none of the file's addresses."""
    port = free_port()
    with Answering() as centre:
        with Proxy(program, port, text_of(port, [f"{HOST}:{centre.port}"])) as proxy:
            proxy.waits_for("bound")
            ran = subprocess.run([program, "demo", proxy.file], capture_output=True, text=True, timeout=PATIENCE)
            assert (ran.returncode, ran.stdout, ran.stderr) == (0, "alpha 10 answered\n", ""), ran
            assert centre.accepted == 1 and "client 2" not in proxy.said(), proxy.said()


def a_script_that_reserves_too_much(program, _):
    """A script of 1 MB whose clients would take more than 1 GB is refused by name, and takes less."""
    lines = ["limits 65535 1024 256 1000000", "lanes 16"] + ["client rx"] * 104_000
    before = resource.getrusage(resource.RUSAGE_CHILDREN).ru_maxrss
    ran = subprocess.run([program, "relay"], input="\n".join(lines), capture_output=True, text=True)
    took = resource.getrusage(resource.RUSAGE_CHILDREN).ru_maxrss
    assert ran.returncode != 0 and "reserves more than 1 GB" in ran.stderr, ran.stderr[-200:]
    assert took <= max(before, GIGABYTE), f"it took {took} KB"


CASES = {
    "a resolver that is silent": in_a_namespace,
    "nobody reads the lines": nobody_reads_the_lines,
    "at a terminal, in the background": at_a_terminal_in_the_background,
    "HUP and USR1 to smx-serve": runs_on_at(service),
    "HUP and USR1 to the group of smx-serve": runs_on_at(service, os.killpg),
    "what systemd is told": what_systemd_is_told,
    "TERM to smx-serve": ends_at(signal.SIGTERM, service),
    "QUIT to the group of smx-serve": ends_at(signal.SIGQUIT, service, os.killpg),
    "early signals to smx-serve": early_signals_to_smx_serve,
    "closed streams of smx-serve": closed_streams(service),
    "closed streams of ./smx": closed_streams(script),
    "faults of smx-serve": faults_of_smx_serve,
    "HUP and USR1 to the group of ./smx": runs_on_at(script, os.killpg),
    "INT to the group of ./smx": ends_at(signal.SIGINT, script, os.killpg),
    "demo beside a proxy of its file": demo_beside_a_proxy,
    "a script that reserves too much": a_script_that_reserves_too_much,
}
