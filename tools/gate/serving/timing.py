"""Times of the configuration: when a lost centre is tried again, how long a connection may go without a bind, and
what a program that stood still makes of them."""

import contextlib
import signal
import time

from .peers import Centre, one_lane
from .smpp import (DELIVER_SM, ENQUIRE_LINK, OK, PATIENCE, RESPONSE, SUBMIT_SM, UNBIND, Gone, message, octets_of,
                   request, response)

# A centre that is back is bound again within these seconds.
BACK = 3
# A message_id (section 5.2.23): 200 responses with it are more than a turn reads.
NAME = b"a name of a message\0"


def centre_away_for_a_second(program, _):
    """By the defaults a centre that was away for a second is bound again within three."""
    with one_lane(program) as (centre, proxy):
        with centre.bound() as link:
            proxy.waits_for("bound")
            centre.listener.close()
            link.stream.close()
        time.sleep(1)
        began = time.monotonic()
        with Centre(port=centre.port) as back, back.bound():
            proxy.waits_for_more(": bound", 1)
            took = time.monotonic() - began
            assert took < BACK, f"bound after {took:.1f} seconds"


def connections_without_a_bind(program, _):
    """One that is idle, and one that enquires all the time and never reads, are closed after `bind`, and a client
    that is bound stays."""
    with one_lane(program, keys="[timers]\nbind = 1000") as (centre, proxy):
        with centre.bound(), proxy.client() as bound, proxy.connect() as idle, proxy.connect() as flood:
            began = time.monotonic()
            with contextlib.suppress(OSError):
                while time.monotonic() < began + PATIENCE:
                    flood.stream.sendall(octets_of(request(ENQUIRE_LINK, 1)) * 4_096)
            assert time.monotonic() < began + PATIENCE, "the flood goes on"
            assert idle.rest() == []
            assert proxy.said().count("not bound in time") == 2, proxy.said()
            assert bound.ask(request(ENQUIRE_LINK, 90)).status == OK


def once_a_slot_is_free(proxy):
    """A client that is bound, which connects until a slot is free."""
    end = time.monotonic() + PATIENCE
    while time.monotonic() < end:
        with contextlib.suppress(Gone, OSError):
            return proxy.client()
        time.sleep(0.1)
    raise AssertionError("no slot is free")


def slots_of_those_that_stay(program, _):
    """One that unbound, or had a bad length, and doesn't close, gives its slot back all the same."""
    with one_lane(program, keys="clients = 1") as (centre, proxy), centre.bound():
        for last in (octets_of(request(UNBIND, 2)), b"\0\0\0\x08"):
            first = once_a_slot_is_free(proxy)
            first.stream.sendall(last)
            first.hear()
            with once_a_slot_is_free(proxy), first:
                pass


def program_that_stood_still(program, _):
    """Answers that came while the program stood still count: no request of them fails and no link is lost, though the
    enquiry is older than `enquire` and the requests than `response` (and not twice as old)."""
    keys, limits = "[timers]\nenquire = 4000\nresponse = 8000", "queue = 200\nwindow = 200\nclient = 200"
    with one_lane(program, keys=keys, limits=limits) as (centre, proxy), centre.bound() as up, proxy.client() as link:
        link.say(*(message(SUBMIT_SM, it, "49") for it in range(1, 201)))
        asked = [up.hear() for _ in range(201)]
        assert [it.command for it in asked] == 200 * [SUBMIT_SM] + [ENQUIRE_LINK], asked[200]
        proxy.child.send_signal(signal.SIGSTOP)
        up.say(*(response(it, body=NAME if it.command == SUBMIT_SM else b"") for it in reversed(asked)))
        time.sleep(5)
        proxy.child.send_signal(signal.SIGCONT)
        answers = [link.hear() for _ in range(200)]
        assert {(it.status, it.body) for it in answers} == {(OK, NAME)}, answers
        assert sorted(it.number for it in answers) == list(range(1, 201))
        assert up.is_quiet() and "ended" not in proxy.said(), proxy.said()


def stood_still_for_longer_than_it_waits(program, _):
    """The same where it waits for events as it is stopped, for longer than `response`, which interrupts that wait."""
    with one_lane(program, keys="[timers]\nresponse = 4000", limits="window = 50") as (centre, proxy):
        with centre.bound() as up, proxy.client() as link:
            for _ in range(3):
                link.say(*(message(SUBMIT_SM, it, "49") for it in range(1, 21)))
                asked = [up.hear_but_enquiries() for _ in range(20)]
                time.sleep(0.3)
                proxy.child.send_signal(signal.SIGSTOP)
                up.say(*(response(it, body=NAME) for it in asked))
                time.sleep(5)
                proxy.child.send_signal(signal.SIGCONT)
                answers = [link.hear() for _ in range(20)]
                assert {it.status for it in answers} == {OK}, answers


def nothing_waits_for_a_tick(program, _):
    """Of 1,200 exchanges one after another each goes on at once, though what is left lying would be found at a tick,
    within a second: requests, messages, both at once, several of each, enquiries and what answers nothing."""
    with one_lane(program) as (centre, proxy), centre.bound() as up, proxy.client() as link:
        began = time.monotonic()
        for number in range(1, 301):
            link.say(message(SUBMIT_SM, number, "49"), request(ENQUIRE_LINK, number))
            assert link.hear().command == ENQUIRE_LINK | RESPONSE
            asked = up.hear_but_enquiries()
            up.say(message(DELIVER_SM, number, "49"), response(asked, body=NAME))
            told = next(it for it in (link.hear(), link.hear()) if it.command == DELIVER_SM)
            link.say(response(told, body=b"\0"), message(SUBMIT_SM, number, "49"), message(SUBMIT_SM, number, "49"))
            found = [up.hear_but_enquiries() for _ in range(3)]
            up.say(*(response(it, body=NAME) for it in found if it.command == SUBMIT_SM))
            assert [link.hear()[1:3] for _ in range(2)] == [(OK, number)] * 2
            up.say(response(asked, body=NAME), *(message(DELIVER_SM, 1_000 * it + number, "49") for it in (1, 2, 3)))
            link.say(*(response(it, body=b"\0") for it in [link.hear() for _ in range(3)]))
            answers = [up.hear_but_enquiries()[1:3] for _ in range(3)]
            assert answers == [(OK, 1_000 * it + number) for it in (1, 2, 3)], answers
        took = time.monotonic() - began
        assert took < 5, f"it took {took:.1f} seconds"


def full_windows_hold_nothing_up(program, _):
    """Where a lane's window is full each answer reaches its client before the centre says another, though more of the
    client's requests are under way, and each request that waits goes out behind it: one by one, in pairs, and of two
    clients in turn. Each of 550 exchanges would be found at a tick, within a minute."""
    with one_lane(program, limits="window = 2\nqueue = 400\nclient = 256") as (centre, proxy), centre.bound() as up:
        with proxy.client() as link, proxy.client() as other:
            began = time.monotonic()
            for count in (1, 2):
                link.say(*(message(SUBMIT_SM, it, "49") for it in range(1, 201)))
                for number in range(1, 201, count):
                    up.say(*[response(up.hear_but_enquiries(), body=NAME) for _ in range(count)])
                    heard = [link.hear_but_enquiries()[1:3] for _ in range(count)]
                    assert heard == [(OK, number + it) for it in range(count)], heard
            for number in range(1, 251):
                for each in (link, other, link, other):
                    each.say(message(SUBMIT_SM, number, "49"))
                for _each in range(4):
                    up.say(response(up.hear_but_enquiries(), body=NAME))
                heard = [each.hear_but_enquiries()[1:3] for each in (link, other, link, other)]
                assert heard == [(OK, number)] * 4, heard
            took = time.monotonic() - began
            assert took < 5, f"it took {took:.1f} seconds"


CASES = {
    "nothing waits for a tick": nothing_waits_for_a_tick,
    "full windows hold nothing up": full_windows_hold_nothing_up,
    "a centre that was away for a second": centre_away_for_a_second,
    "connections without a bind": connections_without_a_bind,
    "slots of those that stay": slots_of_those_that_stay,
    "a program that stood still": program_that_stood_still,
    "a program that stood still while it waited": stood_still_for_longer_than_it_waits,
}
