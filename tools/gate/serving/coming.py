"""Clients that come and go, and lanes that can't be had."""

import signal
import subprocess
import tempfile

from .peers import HOST, Answering, Centre, Proxy, free_port, one_lane, text_of
from .smpp import (BIND_TRANSCEIVER, ENQUIRE_LINK, OK, RESPONSE, SUBMIT_FAILED, SUBMIT_SM, UNBIND, bind_of,
                   long_message, message, octets_of, request)

# More than the proxy accepts in a pass, and fewer than wait at its listener.
MANY = 110
SMALL = "history = 1000\nqueue = 300\nwindow = 300\nclient = 256"


def come_and_go(proxy, count):
    """So many clients bind one after another; each second one unbinds, the others just close."""
    # (the octets of a bind and its answer are the same for all)
    said, unbind = octets_of(bind_of("alpha", "secret")), request(UNBIND, 2)
    for at in range(count):
        # (of each address the ports end, since the system keeps one for a minute)
        with proxy.connect(f"127.0.{at // 10_000 % 256}.1") as link:
            link.stream.sendall(said)
            answer = link.hear()
            assert answer[:3] == (BIND_TRANSCEIVER | RESPONSE, OK, 1), f"client {at} of {count}: {answer}"
            if at % 2:
                assert link.ask(unbind).status == OK


def are_answered(link, count):
    """So many submit_sm are each answered once, with status 0 and their own number."""
    numbers = range(1001, 1001 + count)
    link.say(*(message(SUBMIT_SM, it, "49") for it in numbers))
    heard = sorted(link.hear_but_enquiries()[:3] for _ in numbers)
    assert heard == [(SUBMIT_SM | RESPONSE, OK, it) for it in numbers], f"answered were {heard}"
    assert link.is_quiet()


def door_beside(others):
    """A case: clients come and go, and each is bound, though nothing else happens on the lane that is bound; beside
    it stand lanes with these addresses."""
    def case(program, clients):
        port = free_port()
        with Answering() as centre:
            text = text_of(port, [f"{HOST}:{centre.port}", *others()], limits=SMALL)
            with Proxy(program, port, text) as proxy:
                proxy.waits_for("bound")
                come_and_go(proxy, clients)
                with proxy.client() as link:
                    are_answered(link, 8)
    return case


def door_beside_a_lane_that_is_clogged(program, clients):
    """The same beside a lane whose centre bound and reads no more, with more to write than a socket takes."""
    port = free_port()
    with Answering() as centre, Centre(room=4096) as clogged:
        addresses = [f"{HOST}:{it.port}" for it in (centre, clogged)]
        with Proxy(program, port, text_of(port, addresses, limits=SMALL, keys="silence = 3600000")) as proxy:
            link = clogged.bound()
            proxy.waits_for("upstream 0 proxy")
            proxy.waits_for("upstream 1 proxy")
            with link, proxy.client() as filler:
                filler.say(*(long_message(it, "49", 60_000) for it in range(2, 182)))
                # (one lane answers its half, the other never)
                for _ in range(90):
                    assert filler.hear().status == OK
                come_and_go(proxy, clients)


def unreachable(address):
    """A case: beside an upstream with this address each request is answered by the other."""
    def case(program, _):
        port = free_port()
        with Answering() as centre:
            addresses = [f"{HOST}:{centre.port}", address]
            with Proxy(program, port, text_of(port, addresses)) as proxy, proxy.client() as link:
                are_answered(link, 8)
    return case


def no_address(address, words):
    """A case: an upstream with this address is a fault of the configuration, which is said."""
    def case(program, _):
        with tempfile.NamedTemporaryFile("w", suffix=".toml") as file:
            file.write(text_of(free_port(), [address]))
            file.flush()
            ended = subprocess.run([program, "serve", file.name], capture_output=True, text=True, timeout=20)
        assert ended.returncode == 78 and words in ended.stderr, ended
    return case


def queued_requests_of_a_lost_lane(program, _):
    """What is queued on a lane that stays without a link is answered once the response timer ended."""
    with one_lane(program, keys="[timers]\nresponse = 5000", limits="window = 1") as (centre, proxy):
        up = centre.bound()
        with proxy.client() as link:
            link.say(*(message(SUBMIT_SM, it, "49") for it in (5, 6, 7)))
            assert up.hear_but_enquiries().command == SUBMIT_SM
            centre.listener.close()
            up.stream.close()
            # The one that was sent at once, the others after five seconds.
            assert link.hear()[:3] == (SUBMIT_SM | RESPONSE, SUBMIT_FAILED, 5)
            for number in (6, 7):
                assert link.hear()[:3] == (SUBMIT_SM | RESPONSE, SUBMIT_FAILED, number)
            assert link.is_quiet()


def many_at_once(program, _):
    """Of more connections at once than are accepted in one pass each is served."""
    with one_lane(program, keys="clients = 256") as (_, proxy):
        proxy.child.send_signal(signal.SIGSTOP)
        links = [proxy.connect() for _ in range(MANY)]
        proxy.child.send_signal(signal.SIGCONT)
        for link in links:
            assert link.ask(request(ENQUIRE_LINK, 7))[:3] == (ENQUIRE_LINK | RESPONSE, OK, 7)
            link.stream.close()


CASES = {
    "a door beside an idle lane": door_beside(lambda: []),
    "a door beside a lane that is down": door_beside(lambda: [f"{HOST}:{free_port()}"]),
    "a door beside a lane that is clogged": door_beside_a_lane_that_is_clogged,
    "an upstream of an unknown name": unreachable("nobody.invalid:2775"),
    "an upstream without a port": no_address(HOST, "has no port"),
    "an upstream with port 70000": no_address(f"{HOST}:70000", "above 65535"),
    "queued requests of a lost lane": queued_requests_of_a_lost_lane,
    "many connections at once": many_at_once,
}
