"""Limits of an account, binds that are refused, and connections behind a proxy of TCP."""

import contextlib
import socket
import struct
import threading
import time

from .peers import HOST, Centre, Proxy, free_port, one_lane, text_of, upstream
from .smpp import (OK, QUEUE_FULL, RESPONSE, SUBMIT_SM, UNBIND, Gone, bind_of, message, octets_of, request, response)

# Statuses of refused binds (section 5.1.3).
BIND_FAILED, BAD_PASSWORD = 0x0D, 0x0E
# The signature of the PROXY protocol, version 2 (section 2.2 of its specification), and version 2 with PROXY, LOCAL.
SIGNATURE, PROXIED, LOCAL = b"\r\n\r\n\0\r\nQUIT\n", b"\x21", b"\x20"


def account(name, more):
    return f'[[account]]\nsystem_id = "{name}"\npassword = "secret"\n{more}\n'


def config(port, centre, accounts, limits="", keys=""):
    return f'listen = "{HOST}:{port}"\n{keys}\n[limits]\n{limits}\n' + upstream(f"{HOST}:{centre.port}") + accounts


def binds_of_an_account(program, _):
    """One client more than `binds` is answered 0x0D; once one has left, the next is bound."""
    port = free_port()
    with Centre() as centre:
        text = config(port, centre, account("alpha", "binds = 2") + account("beta", ""))
        with Proxy(program, port, text) as proxy, centre.bound():
            first, second = proxy.client(), proxy.client()
            with proxy.connect() as third:
                assert third.ask(bind_of("alpha", "secret")).status == BIND_FAILED
                assert third.ask(bind_of("beta", "secret", 2)).status == OK
            assert first.ask(request(UNBIND, 2)).status == OK
            assert first.rest() == []
            with proxy.client(), proxy.connect() as fourth:
                assert fourth.ask(bind_of("alpha", "secret")).status == BIND_FAILED
            second.stream.close()


def requests_of_an_account(program, _):
    """Of 50 requests in one segment of an account with `requests = 20` twenty go up and thirty are answered 0x14, also
    over two connections and where the first one is gone; each answer makes room for one more."""
    port = free_port()
    with Centre() as centre:
        text = config(port, centre, account("alpha", "requests = 20"), "window = 100\nqueue = 100\nclient = 100")
        with Proxy(program, port, text) as proxy, centre.bound() as up, proxy.client() as first:
            first.stream.sendall(b"".join(octets_of(message(SUBMIT_SM, it, "49")) for it in range(1, 51)))
            taken = [up.hear() for _ in range(20)]
            refused = [first.hear() for _ in range(30)]
            assert {(it.status, it.number) for it in refused} == {(QUEUE_FULL, it) for it in range(21, 51)}, refused
            with proxy.client() as second:
                assert second.ask(message(SUBMIT_SM, 1, "49")).status == QUEUE_FULL
                up.say(response(taken[0], body=b"a\0"))
                assert first.hear()[1:] == (OK, 1, b"a\0")
                second.say(message(SUBMIT_SM, 2, "49"))
                taken.append(up.hear())
                first.stream.close()
                proxy.waits_for("closed its connection")
                assert second.ask(message(SUBMIT_SM, 3, "49")).status == QUEUE_FULL
                up.say(*(response(it, body=b"b\0") for it in taken[1:11]))
                time.sleep(0.3)
                second.say(*(message(SUBMIT_SM, it, "49") for it in range(11, 22)))
                more = [up.hear() for _ in range(10)]
                last = second.hear()
                assert last[1:3] == (QUEUE_FULL, 21), last
                assert up.is_quiet()
                assert len(more) == 10


def greed(proxy, counts, resets):
    """A client that sends twenty requests at once, and again once they are answered, or resets and binds anew."""
    while not counts["over"]:
        try:
            link = proxy.client("greedy")
            while not counts["over"]:
                link.say(*(message(SUBMIT_SM, it, "49") for it in range(1, 21)))
                if resets:
                    link.stream.setsockopt(socket.SOL_SOCKET, socket.SO_LINGER, struct.pack("ii", 1, 0))
                    link.stream.close()
                    break
                for _ in range(20):
                    link.hear(5)
        except (Gone, OSError, AssertionError):
            time.sleep(0.001)


def polite(proxy, counts, n):
    """A client that has one request without an answer."""
    with proxy.client(f"polite{n}") as link:
        number = 0
        while not counts["over"]:
            number += 1
            if link.ask(message(SUBMIT_SM, number, "49")).status == OK:
                counts[n] += 1
            else:
                time.sleep(0.005)


def answer_after(up, delay, counts):
    """A centre that answers each request after so many seconds, and counts them."""
    waiting = []

    def say():
        with contextlib.suppress(OSError):
            while True:
                while waiting and waiting[0][0] <= time.monotonic():
                    counts["answered"] += 1
                    up.say(response(waiting.pop(0)[1], body=b"c\0"))
                time.sleep(0.0005)

    threading.Thread(target=say, daemon=True).start()
    try:
        while True:
            pdu = up.hear()
            if not pdu.command & RESPONSE:
                waiting.append((time.monotonic() + delay, pdu))
    except (Gone, OSError):
        pass


def greedy_account(resets):
    """A case: ten clients keep their share beside an account that takes what it can get."""
    def case(program, _):
        port = free_port()
        names = "".join(account(f"polite{it}", "") for it in range(10))
        with Centre() as centre:
            limits = "window = 10\nqueue = 100\nclient = 20"
            text = config(port, centre, account("greedy", "requests = 20") + names, limits, "clients = 64")
            with Proxy(program, port, text) as proxy, centre.bound() as up:
                counts = {"over": False, "answered": 0, **{it: 0 for it in range(10)}}
                threading.Thread(target=answer_after, args=(up, 0.02, counts), daemon=True).start()
                work = [threading.Thread(target=polite, args=(proxy, counts, it), daemon=True) for it in range(10)]
                for _ in range(1 if resets else 6):
                    work.append(threading.Thread(target=greed, args=(proxy, counts, resets), daemon=True))
                for it in work:
                    it.start()
                time.sleep(6)
                counts["over"] = True
                for it in work[:10]:
                    it.join(10)
                found = [counts[it] for it in range(10)]
                # (80 in six seconds, of the 3,000 that the lane can have answered then)
                assert min(found) * 3_000 >= 80 * counts["answered"], (found, counts["answered"])
    return case


def refused_binds(program, _):
    """The third refused bind over a connection closes it once it is answered, and each is answered 100 ms after the one
    before at the earliest."""
    with one_lane(program) as (centre, proxy), centre.bound(), proxy.connect() as link:
        link.say(*(bind_of("alpha", "wrong", it) for it in range(1, 6)))
        moments = []
        for number in (1, 2, 3):
            assert link.hear()[1:3] == (BAD_PASSWORD, number)
            moments.append(time.monotonic())
        assert link.rest() == []
        gaps = [moments[1] - moments[0], moments[2] - moments[1]]
        assert all(it > 0.099 for it in gaps), gaps
        proxy.waits_for("hung up, three refused binds")
        with proxy.connect() as other:
            assert other.ask(bind_of("alpha", "wrong")).status == BAD_PASSWORD
            assert other.ask(bind_of("alpha", "secret", 2)).status == OK


def header_of(address, port, more=b""):
    """A header of TCP over IPv4 from this address."""
    addresses = socket.inet_aton(address) + socket.inet_aton("10.9.9.9") + struct.pack(">HH", port, 2775) + more
    return SIGNATURE + PROXIED + b"\x11" + struct.pack(">H", len(addresses)) + addresses


def behind_a_proxy(program, _):
    """With `proxy_protocol` lines have the address that a header says; a connection without one is closed."""
    with one_lane(program, keys="proxy_protocol = true") as (centre, proxy), centre.bound():
        bind = octets_of(bind_of("alpha", "secret"))
        slowly = header_of("10.1.2.4", 4712, b"\x20\0\x01\0") + bind
        for octets in ([header_of("10.1.2.3", 4711) + bind], [bytes([it]) for it in slowly]):
            with proxy.connect() as link:
                for it in octets:
                    link.stream.sendall(it)
                assert link.hear()[1:3] == (OK, 1)
        proxy.waits_for("at 10.1.2.3:4711: connected")
        proxy.waits_for("alpha at 10.1.2.4:4712: bound as transceiver")
        with proxy.connect() as link:
            link.stream.sendall(SIGNATURE + LOCAL + b"\0\0\0" + bind)
            assert link.hear()[1:3] == (OK, 1)
        address = socket.inet_pton(socket.AF_INET6, "2001:db8::7")
        six = SIGNATURE + PROXIED + b"\x21\0\x24" + address + bytes(16) + struct.pack(">HH", 5, 6)
        with proxy.connect() as link:
            link.stream.sendall(six + bind)
            assert link.hear()[1:3] == (OK, 1)
        proxy.waits_for("alpha at [2001:db8::7]:5: bound")
        for wrong in (bind, b"PROXY TCP4 10.1.2.3 10.9.9.9 1 2\r\n", SIGNATURE + b"\x11\x11\0\x0c" + bytes(12)):
            with proxy.connect() as link:
                link.stream.sendall(wrong)
                assert link.rest() == []
        proxy.waits_for_more("began with no header of the PROXY protocol", 2)


CASES = {
    "binds of an account": binds_of_an_account,
    "requests of an account": requests_of_an_account,
    "a greedy account": greedy_account(False),
    "a greedy account that resets": greedy_account(True),
    "binds that are refused": refused_binds,
    "behind a proxy of TCP": behind_a_proxy,
}
