"""What lies between the other cases: the next link, lines left out, and terminals and signals of the scripts."""

import contextlib
import fcntl
import os
import pathlib
import pty
import re
import shutil
import signal
import tempfile
import threading

from .peers import HOST, Answering, Centre, Proxy, free_port, is_free, one_lane, state_of, text_of
from .running import TOP
from .smpp import (DELIVER_SM, ENQUIRE_LINK, OK, PATIENCE, RESPONSE, SUBMIT_FAILED, SUBMIT_SM, Gone, message, request,
                   response)

# ESME_RTHROTTLED, an answer that is told from one with status 0.
THROTTLED = 0x58
LANES = 16
# Links that each make two lines, together more than the 4,096 lines that wait.
LINKS = 2_500


def queued_requests_go_on(program, _):
    """Where a link is lost what was sent fails at once, and what is queued goes out on the next one."""
    with one_lane(program, keys="silence = 2000", limits="window = 2") as (centre, proxy):
        with centre.bound() as first, proxy.client() as link:
            link.say(*(message(SUBMIT_SM, it, "49") for it in range(2, 8)))
            sent = [first.hear_but_enquiries().body for _ in range(2)]
            assert link.ask(request(ENQUIRE_LINK, 90)).status == OK
            first.stream.close()
            failed = sorted(link.hear()[:3] for _ in sent)
            assert failed == [(SUBMIT_SM | RESPONSE, SUBMIT_FAILED, it) for it in (2, 3)], failed
            with centre.bound() as second:
                for _ in range(4):
                    second.say(response(second.hear_but_enquiries(), body=b"id\0"))
                answered = sorted(link.hear()[:3] for _ in range(4))
            assert answered == [(SUBMIT_SM | RESPONSE, OK, it) for it in range(4, 8)], answered


def next_message(centre, client, old, when):
    """A new link whose message has the old one's number, where the old answer comes at this time."""
    def answer_old(at):
        if at == when:
            client.say(response(old, body=b"\0"))
            assert client.ask(request(ENQUIRE_LINK, 90)).status == OK

    answer_old("before the link")
    link, bind = centre.binding()
    answer_old("before the bind's answer")
    # (an enquiry is answered before the bind too, and nothing else comes)
    assert link.ask(request(ENQUIRE_LINK, 50)).status == OK
    link.say(response(bind, body=b"centre\0"), message(DELIVER_SM, 7, "49"))
    new = client.hear()
    answer_old("behind the new message")
    assert link.is_quiet(), f"an answer {when} went out over the new link"
    return link, new


def old_answers_at_any_time(program, _):
    """An answer to a message of a lost link goes nowhere, whenever it comes."""
    with one_lane(program, keys="silence = 3000") as (centre, proxy):
        link = centre.bound()
        with proxy.client() as client:
            link.say(message(DELIVER_SM, 7, "49"))
            old = client.hear()
            for when in ("before the link", "before the bind's answer", "behind the new message"):
                lost = proxy.said().count("tried again")
                link.stream.close()
                proxy.waits_for_more("tried again", lost)
                link, new = next_message(centre, client, old, when)
                client.say(response(new, THROTTLED, b"\0"))
                assert link.hear_but_enquiries()[:3] == (DELIVER_SM | RESPONSE, THROTTLED, 7)
                link.say(message(DELIVER_SM, 7, "49"))
                old = client.hear()
        link.stream.close()


def close_each(centre, enough):
    """Binds links and closes each, until they made more lines than wait."""
    with contextlib.suppress(OSError):
        for made in range(2 * LINKS):
            with contextlib.suppress(Gone, AssertionError):
                centre.bound().stream.close()
            if made == LINKS:
                enough.set()


def lines_are_left_out(program, _):
    """More lines than wait are left out while nobody reads them, and then a line says how many."""
    port, (read_end, write_end) = free_port(), os.pipe()
    fcntl.fcntl(write_end, fcntl.F_SETPIPE_SZ, 4096)
    enough = threading.Event()
    with Centre() as centre, os.fdopen(read_end, "rb") as lines:
        text = text_of(port, [f"{HOST}:{centre.port}"] * LANES, keys="[timers]\nreconnect = 100\nreconnect_most = 100")
        with Proxy(program, port, text, stderr=write_end) as proxy:
            os.close(write_end)
            threading.Thread(target=close_each, args=(centre, enough), daemon=True).start()
            assert enough.wait(3 * PATIENCE), "the lanes aren't connected any more"
            with proxy.client() as link:
                assert link.ask(request(ENQUIRE_LINK, 2)).status == OK
                for line in lines:
                    if re.fullmatch(rb"\S+ warn \d+ lines left out\n", line):
                        break
                else:
                    raise AssertionError("no line says how many were left out")


@contextlib.contextmanager
def script_of(program):
    """The script ./smx in a folder where this program counts as built."""
    with tempfile.TemporaryDirectory(prefix="smx-script-") as folder:
        top = pathlib.Path(folder)
        for each in ("crates/smx/out", "tools/operators"):
            (top / each).mkdir(parents=True)
        shutil.copy(TOP / "smx", top)
        (top / "crates/smx/out/smx").symlink_to(program)
        (top / "tools/operators/program").write_text("#!/bin/sh\nexit 0\n")
        (top / "tools/operators/program").chmod(0o755)
        yield top / "smx"


def script_in_the_background(program, _):
    """./smx at a terminal, in the background, isn't stopped by it either."""
    port, (leader, terminal) = free_port(), pty.openpty()
    shell = ["setsid", "--ctty", "sh", "-mc", '"$@" & wait', "sh"]
    with Answering() as centre, script_of(program) as script:
        text = text_of(port, [f"{HOST}:{centre.port}"])
        how = {"stdin": terminal, "start_new_session": False}
        with Proxy(program, port, text, [*shell, script, "serve"], **how) as proxy:
            try:
                os.write(leader, b"stop\n")
                with proxy.client() as link:
                    assert link.ask(request(ENQUIRE_LINK, 2)).status == OK
                states = {it: state_of(it) for it in of_session(proxy.child.pid)}
                assert "T" not in states.values(), f"the processes' states are {states}"
            finally:
                for process in of_session(proxy.child.pid):
                    os.kill(process, signal.SIGKILL)
    os.close(leader)
    os.close(terminal)


def of_session(leader):
    """The processes of a session."""
    found = []
    for name in filter(str.isdigit, os.listdir("/proc")):
        with contextlib.suppress(OSError):
            if os.getsid(int(name)) == leader:
                found.append(int(name))
    return found


def terminal_that_is_read(program, _):
    """With --stdin a line `stop` of a terminal ends it, whether by ./smx or not."""
    with script_of(program) as script:
        for words in ([program, "serve", "--stdin"], [script, "serve", "--stdin"]):
            port, (leader, terminal) = free_port(), pty.openpty()
            with Answering() as centre:
                text = text_of(port, [f"{HOST}:{centre.port}"])
                with Proxy(program, port, text, words, stdin=terminal) as proxy:
                    os.write(leader, b"stop\n")
                    assert proxy.child.wait(PATIENCE) == 0, proxy.said()
            os.close(leader)
            os.close(terminal)


def hangup_at_a_terminal(program, _):
    """SIGHUP to ./smx at a terminal ends the proxy in order, and leaves nobody on its port."""
    port, (leader, terminal) = free_port(), pty.openpty()
    with Answering() as centre, script_of(program) as script:
        text = text_of(port, [f"{HOST}:{centre.port}"])
        with Proxy(program, port, text, [script, "serve"], stdin=terminal) as proxy:
            proxy.child.send_signal(signal.SIGHUP)
            assert proxy.child.wait(PATIENCE) == 0, proxy.said()
            assert is_free(port), "the proxy was left on its port"
    os.close(leader)
    os.close(terminal)


CASES = {
    "queued requests of a link go out on the next": queued_requests_go_on,
    "old answers at any time": old_answers_at_any_time,
    "lines are left out": lines_are_left_out,
    "./smx at a terminal, in the background": script_in_the_background,
    "a terminal that is read": terminal_that_is_read,
    "HUP to ./smx at a terminal": hangup_at_a_terminal,
}
