"""A stop: what is under way is awaited and answered, each client is unbound, then each lane."""

import threading
import time

from .peers import HOST, Centre, Proxy, free_port, one_lane, text_of
from .smpp import (DELIVER_SM, ENQUIRE_LINK, OK, PATIENCE, QUEUE_FULL, RESPONSE, SUBMIT_FAILED, SUBMIT_SM,
                   TEMPORARY_ERROR, UNBIND, Gone, message, request, response)

# An identifier that a centre gives (section 4.4.2), as a body.
NAME = b"centre\0"
# generic_nack and what it says where a lane fails a query_sm (sections 4.8.1, 4.3.1 and 5.1.3).
QUERY_SM, NACK, SYSTEM_ERROR = 0x03, 0x80000000, 0x08


def until_unbind(link, answers=True):
    """The PDUs before the proxy's unbind, which is answered, or not; behind it nothing comes."""
    found = []
    while (pdu := link.hear()).command != UNBIND:
        found.append(pdu)
    if answers:
        link.say(response(pdu))
        assert link.rest() == []
    return found


def stop_that_answers(program, _):
    """Requests that are under way at a stop are answered by the centre; one that comes later is answered 0x14, and
    nobody new gets in; then each client is unbound, its message is answered 0x64, and the lane is unbound."""
    with one_lane(program, limits="queue = 100\nwindow = 10\nclient = 100") as (centre, proxy):
        with centre.bound() as up, proxy.client() as client, proxy.connect() as stranger:
            client.say(*(message(SUBMIT_SM, it, "49") for it in range(1, 81)))
            taken = [up.hear() for _ in range(10)]
            up.say(message(DELIVER_SM, 7, "49"))
            assert client.hear().command == DELIVER_SM
            proxy.asks("stop")
            proxy.waits_for("draining, 80 requests under way")
            assert stranger.rest() == []
            try:
                proxy.connect().hear(1)
                raise AssertionError("somebody was let in")
            except (OSError, Gone):
                pass
            client.say(message(SUBMIT_SM, 81, "49"))
            late = client.hear()
            assert late[:3] == (SUBMIT_SM | RESPONSE, QUEUE_FULL, 81), late
            for n in range(80):
                if n >= 10:
                    taken.append(up.hear())
                up.say(response(taken[n], body=NAME))
            answers = until_unbind(client)
            assert [it[1:] for it in answers] == [(OK, it, NAME) for it in range(1, 81)], answers
            assert up.hear()[:3] == (DELIVER_SM | RESPONSE, TEMPORARY_ERROR, 7)
            assert until_unbind(up) == []
            assert proxy.child.wait(10) == 0
            proxy.waits_for("drained: 80 answered, 0 with 0x45")


def stop_of_a_silent_centre(program, _):
    """What the centre doesn't answer in time, and what is queued, is answered as at a lost link, once."""
    limits = "window = 10\nqueue = 100\nclient = 100"
    with one_lane(program, keys="[timers]\nstop = 1000", limits=limits) as (centre, proxy):
        with centre.bound() as up, proxy.client() as client:
            client.say(*(message(SUBMIT_SM, it, "49") for it in range(1, 41)), request(QUERY_SM, 41, b"1\0\0\0\0"))
            taken = [up.hear() for _ in range(10)]
            began = time.monotonic()
            proxy.asks("stop")
            answers = until_unbind(client)
            assert 0.9 < time.monotonic() - began < PATIENCE
            failed = [(SUBMIT_SM | RESPONSE, SUBMIT_FAILED, it) for it in range(1, 41)] + [(NACK, SYSTEM_ERROR, 41)]
            assert sorted(it[:3] for it in answers) == sorted(failed), answers
            up.say(response(taken[0], body=NAME))
            assert until_unbind(up) == []
            assert proxy.child.wait(10) == 0
            proxy.waits_for("drained: 0 answered, 41 with 0x45")


def stop_once_more(program, _):
    """A second stop cuts the waiting short; the client is sent unbind all the same."""
    with one_lane(program, keys="[timers]\nstop = 600000") as (centre, proxy):
        with centre.bound() as up, proxy.client() as client:
            client.say(message(SUBMIT_SM, 5, "49"))
            up.hear()
            proxy.asks("stop")
            proxy.waits_for("draining, 1 request under way")
            time.sleep(1)
            assert "drained" not in proxy.said()
            proxy.asks("stop")
            assert client.hear()[:3] == (SUBMIT_SM | RESPONSE, SUBMIT_FAILED, 5)
            assert until_unbind(client) == []
            assert until_unbind(up) == []
            assert proxy.child.wait(10) == 0


def clients_that_answer_no_unbind(program, _):
    """A client that doesn't answer the unbind is let go after a second; one that answers late messages is heard."""
    with one_lane(program) as (centre, proxy):
        with centre.bound() as up, proxy.client() as deaf, proxy.client("alpha") as slow:
            up.say(message(DELIVER_SM, 9, "49"))
            late = deaf.hear()
            began = time.monotonic()
            proxy.asks("stop")
            assert until_unbind(deaf, answers=False) == [] and until_unbind(slow, answers=False) == []
            deaf.say(response(late, body=b"\0"))
            assert up.hear()[:3] == (DELIVER_SM | RESPONSE, OK, 9)
            assert deaf.rest() == [] and slow.rest() == []
            assert 0.9 < time.monotonic() - began < PATIENCE
            assert until_unbind(up) == []
            assert proxy.child.wait(10) == 0
            assert proxy.said().count("answered no unbind") == 2, proxy.said()


def stop_under_load(program, _):
    """Several clients go on sending: each request that was sent is answered, or came behind the unbind."""
    port = free_port()
    with Centre() as centre:
        text = text_of(port, [f"{HOST}:{centre.port}"], limits="window = 50\nqueue = 200\nclient = 50")
        with Proxy(program, port, text) as proxy, centre.bound() as up:
            threading.Thread(target=answer, args=(up,), daemon=True).start()
            links = [proxy.client() for _ in range(8)]
            counts = [None] * len(links)
            work = [threading.Thread(target=send_on, args=(it, counts, n)) for n, it in enumerate(links)]
            for it in work:
                it.start()
            time.sleep(1)
            proxy.asks("stop")
            for it in work:
                it.join(20)
            assert all(counts) and all(left == 0 for _, left in counts), (counts, proxy.said())
            assert proxy.child.wait(10) == 0
            assert ", 0 with 0x45" in proxy.said(), proxy.said()


def answer(up):
    """Answers each request of a link, with a little pause."""
    try:
        while True:
            pdu = up.hear()
            if not pdu.command & RESPONSE:
                time.sleep(0.001)
                up.say(response(pdu, body=NAME))
    except (Gone, OSError):
        pass


def send_on(link, counts, n):
    """Keeps ten requests without an answer until unbind comes, and notes how many were sent and not answered."""
    sent, open_ = 0, set()
    while True:
        while len(open_) < 10:
            sent += 1
            open_.add(sent)
            link.say(message(SUBMIT_SM, sent, "49"))
        pdu = link.hear()
        if pdu.command == UNBIND:
            break
        if pdu.command != ENQUIRE_LINK:
            open_.discard(pdu.number)
        # (refused, it leaves the interpreter to the other clients, who have a second for their answer to the unbind)
        if pdu.status == QUEUE_FULL:
            time.sleep(0.005)
    # (what was sent before the unbind was heard is answered in front of the end)
    link.say(response(pdu))
    for it in link.rest():
        open_.discard(it.number)
    counts[n] = (sent, len(open_))


CASES = {
    "a stop that answers": stop_that_answers,
    "a stop of a silent centre": stop_of_a_silent_centre,
    "a stop once more": stop_once_more,
    "clients that answer no unbind": clients_that_answer_no_unbind,
    "a stop under load": stop_under_load,
}
