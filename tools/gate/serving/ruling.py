"""What accounts may send, as what the proxy binds, bursts of messages, and how all stands."""

import re
import struct

from .peers import HOST, Answering, Centre, Proxy, account, free_port, one_lane, text_of, upstream
from .smpp import (DELIVER_SM, INVALID_LENGTH, OK, QUEUE_FULL, RESPONSE, SUBMIT_SM, Link, bind_of, message, request,
                   response)

# Commands of section 5.1.2.1 and statuses of section 5.1.3.
BIND_RECEIVER, BIND_TRANSMITTER, QUERY_SM, BIND_TRANSCEIVER = 0x01, 0x02, 0x03, 0x09
BAD_MESSAGE_LENGTH, WRONG_STATE, BAD_COMMAND, BAD_PASSWORD, BAD_SYSTEM_ID = 0x01, 0x04, 0x03, 0x0E, 0x0F


def ruled(keys):
    """A proxy whose account alpha has these keys, before a centre that answers all."""
    def case_of(case):
        def tried(program, _):
            port = free_port()
            with Answering() as centre:
                text = text_of(port, [f"{HOST}:{centre.port}"]) + keys + "\n"
                with Proxy(program, port, text) as proxy, proxy.client() as link:
                    case(link)
        return tried
    return case_of


@ruled('commands = ["submit_sm"]')
def commands_of_an_account(link):
    """Other commands than those of its account are answered, and go nowhere."""
    query = request(QUERY_SM, 5, b"id\0\0\0\0")
    assert link.ask(query).status == BAD_COMMAND
    assert link.ask(message(SUBMIT_SM, 6, "49")).status == OK


@ruled('bodies = "readable"')
def bodies_that_are_read(link):
    """A body that isn't as its command has it is answered by what is wrong with it."""
    good = message(SUBMIT_SM, 5, "49")
    assert link.ask(good).status == OK
    cut = good._replace(number=6, body=good.body[:-1])
    assert link.ask(cut).status == BAD_MESSAGE_LENGTH
    unended = request(SUBMIT_SM, 7, b"\0\0\0x")
    assert link.ask(unended).status == INVALID_LENGTH
    more = good._replace(number=8, body=good.body + struct.pack(">HHB", 0x0204, 2, 7))
    assert link.ask(more).status == INVALID_LENGTH
    assert link.ask(good._replace(number=9, body=good.body + struct.pack(">HHH", 0x0204, 2, 7))).status == OK


@ruled("")
def bodies_that_are_not_read(link):
    """Where nothing is said of bodies each goes on as it is."""
    assert link.ask(request(SUBMIT_SM, 7, b"\0\0\0x")).status == OK


def names_that_are_too_long(program, _):
    """A bind with too long a password or system_id is answered as one with a wrong one, and a line says why."""
    tries = (("alpha", "ninechars", BAD_PASSWORD, "ESME_RINVPASWD: its password has more than 8 octets"),
             ("a" * 16, "secret", BAD_SYSTEM_ID, "ESME_RINVSYSID: its system_id has more than 15 octets"))
    with one_lane(program) as (_centre, proxy):
        for name, password, status, why in tries:
            with proxy.connect() as link:
                assert link.ask(bind_of(name, password)).status == status
                proxy.waits_for(why)


def a_burst_of_messages(program, _):
    """Of 32 messages at once none is refused: 16 are sent to the client, and 16 wait in its box."""
    with one_lane(program) as (centre, proxy):
        up = centre.bound()
        with proxy.client() as link:
            up.say(*(message(DELIVER_SM, it, "4915") for it in range(1, 33)))
            for _each in range(32):
                pdu = link.hear_but_enquiries()
                assert pdu.command == DELIVER_SM, pdu
                link.say(response(pdu, body=b"\0"))
            answers = [up.hear_but_enquiries() for _each in range(32)]
            assert {it.status for it in answers} == {OK}, [it.status for it in answers]
            assert sorted(it.number for it in answers) == list(range(1, 33))


def a_burst_that_nobody_takes(program, _):
    """A client that answers nothing has its box filled, and then each further message is refused at once."""
    with one_lane(program) as (centre, proxy):
        up = centre.bound()
        with proxy.client() as link, proxy.client() as other:
            up.say(*(message(DELIVER_SM, it, "4915") for it in range(1, 201)))
            refused = [up.hear_but_enquiries() for _each in range(200 - 2 * 16)]
            assert {it.status for it in refused} == {QUEUE_FULL}, refused
            other.say(message(SUBMIT_SM, 7, "49"))
            assert up.hear_but_enquiries().command == SUBMIT_SM
            assert link.hear_but_enquiries().command == DELIVER_SM


def kinds_of_binds(program, _):
    """Requests go over the transmitter alone, messages come over the receiver, and none over the transmitter."""
    port = free_port()
    with Centre() as first, Centre() as second:
        keys = 'bind = "{}"\nsystem_type = "SMPP"\naddress_range = "^49"\ninterface_version = 51\n'
        tables = "".join(upstream(f"{HOST}:{it.port}") + keys.format(kind)
                         for it, kind in ((first, "receiver"), (second, "transmitter")))
        text = text_of(port, []) .replace("[[account]]", tables + "[[account]]", 1)
        with Proxy(program, port, text) as proxy:
            links = {}
            for centre, command in ((first, BIND_RECEIVER), (second, BIND_TRANSMITTER)):
                link = Link(centre.listener.accept()[0])
                pdu = link.hear()
                assert pdu.command == command and pdu.body == b"proxy\0pw\0SMPP\0\x33\0\0^49\0", pdu
                link.say(response(pdu, body=b"centre\0"))
                links[command] = link
            receiver, transmitter = links[BIND_RECEIVER], links[BIND_TRANSMITTER]
            with proxy.client() as client:
                proxy.waits_for("upstream 0 proxy at")
                client.say(*(message(SUBMIT_SM, it, "49") for it in (5, 6, 7)))
                for number in (5, 6, 7):
                    pdu = transmitter.hear_but_enquiries()
                    assert pdu.command == SUBMIT_SM, pdu
                    transmitter.say(response(pdu, body=b"id\0"))
                    assert client.hear_but_enquiries()[:3] == (SUBMIT_SM | RESPONSE, OK, number)
                assert receiver.is_quiet()
                receiver.say(message(DELIVER_SM, 9, "4915"))
                pdu = client.hear_but_enquiries()
                assert pdu.command == DELIVER_SM, pdu
                client.say(response(pdu, body=b"\0"))
                assert receiver.hear_but_enquiries()[:3] == (DELIVER_SM | RESPONSE, OK, 9)
                transmitter.say(message(DELIVER_SM, 10, "4915"))
                assert transmitter.hear_but_enquiries()[:3] == (DELIVER_SM | RESPONSE, WRONG_STATE, 10)


def what_is_queued_and_under_way(program, _):
    """The status has what waits on a lane, what is under way and for how long, and messages without an answer."""
    with one_lane(program, limits="window = 2") as (centre, proxy):
        up = centre.bound()
        with proxy.client() as link:
            link.say(*(message(SUBMIT_SM, it, "49") for it in range(1, 6)))
            for _each in range(2):
                assert up.hear_but_enquiries().command == SUBMIT_SM
            up.say(message(DELIVER_SM, 3, "4915"), message(DELIVER_SM, 4, "4915"))
            for _each in range(2):
                assert link.hear_but_enquiries().command == DELIVER_SM
            proxy.asks("status")
            proxy.waits_for("requests under way\n")
            said = proxy.said()
            assert re.search(r"bound for \d+ ms, 3 queued, 2 under way, the oldest for \d+ ms, \d+ entries", said), said
            assert re.search(r"transceiver, connected for \d+ ms, 5 requests under way, 2 messages unanswered", said), said


CASES = {
    "commands of an account": commands_of_an_account,
    "bodies that are read": bodies_that_are_read,
    "bodies that are not read": bodies_that_are_not_read,
    "names that are too long": names_that_are_too_long,
    "a burst of messages": a_burst_of_messages,
    "a burst that nobody takes": a_burst_that_nobody_takes,
    "kinds of binds": kinds_of_binds,
    "what is queued and under way": what_is_queued_and_under_way,
}
