"""Clients that are silent, and messages that they leave unanswered."""

import contextlib
import socket
import time

from .peers import one_lane
from .smpp import (DELIVER_SM, ENQUIRE_LINK, OK, RESPONSE, SUBMIT_SM, TEMPORARY_ERROR, message, octets_of, request,
                   response)

# The number of the proxy's own enquiry, which no message bears.
OWN = 0x7FFFFFFF


def silent_clients(program, _):
    """A client that is silent is enquired; one that answers stays, one that doesn't is closed."""
    with one_lane(program, keys="[timers]\nclient_silence = 1000") as (centre, proxy):
        with centre.bound(), proxy.client() as stays, proxy.client() as goes:
            for _ in range(3):
                assert stays.hear()[:3] == (ENQUIRE_LINK, OK, OWN)
                stays.say(request(ENQUIRE_LINK, 0)._replace(command=ENQUIRE_LINK | RESPONSE, number=OWN))
            assert [it[:3] for it in goes.rest()] == [(ENQUIRE_LINK, OK, OWN)]
            proxy.waits_for("client 2 alpha at 127.")
            proxy.waits_for("answered no enquire_link")
            assert proxy.said().count("answered no enquire_link") == 1, proxy.said()
            assert stays.ask(request(ENQUIRE_LINK, 90)).status == OK


def messages_in_time(program, _):
    """What a client doesn't answer in time is answered 0x64 ESME_RX_T_APPN once; what it says later reaches nobody."""
    with one_lane(program, keys="[timers]\nmessage = 1000") as (centre, proxy):
        with centre.bound() as up, proxy.client() as client:
            up.say(message(DELIVER_SM, 7, "49"))
            late = client.hear()
            assert up.hear_but_enquiries()[:3] == (DELIVER_SM | RESPONSE, TEMPORARY_ERROR, 7)
            client.say(response(late, body=b"\0"))
            assert up.is_quiet(), "a message was answered twice"
            up.say(message(DELIVER_SM, 8, "49"))
            client.say(response(client.hear(), body=b"\0"))
            assert up.hear_but_enquiries()[:3] == (DELIVER_SM | RESPONSE, OK, 8)
            assert up.is_quiet(2), "a message was answered twice"


def last_request(program, _):
    """The line of a lost link names the request that went out last over it."""
    with one_lane(program) as (centre, proxy):
        with centre.bound() as up, proxy.client() as client:
            client.say(message(SUBMIT_SM, 5, "49"))
            up.hear()
            up.stream.close()
            proxy.waits_for("; the last request on it was submit_sm of client 2 alpha; 1 request failed; ")


def takes_no_octets(program, _):
    """A client that sends and never reads gives its slot back after twice `client_silence`, one that reads stays."""
    with one_lane(program, keys="[timers]\nclient_silence = 1000") as (centre, proxy):
        with centre.bound(), proxy.client() as reads, proxy.client() as deaf:
            deaf.stream.settimeout(0.2)
            began = time.monotonic()
            while "takes no octets" not in proxy.said():
                assert time.monotonic() < began + 20, proxy.said()
                with contextlib.suppress(socket.timeout):
                    deaf.stream.sendall(octets_of(request(ENQUIRE_LINK, 1)) * 4_096)
                assert reads.ask(request(ENQUIRE_LINK, 90)).status == OK
            assert proxy.said().count("takes no octets") == 1, proxy.said()


CASES = {
    "clients that are silent": silent_clients,
    "messages that are left unanswered": messages_in_time,
    "the last request on a link": last_request,
    "a client that takes no octets": takes_no_octets,
}
