"""Messages of the centre, their answers, and what is written before a close."""

import collections
import threading

from .peers import HOST, Answering, Centre, Proxy, free_port, one_lane, text_of
from .smpp import (DELIVER_SM, ENQUIRE_LINK, GENERIC_NACK, INVALID_LENGTH, OK, RESPONSE, TEMPORARY_ERROR, UNBIND,
                   message, octets_of, request, response)


def answers_stay_on_their_link(program, _):
    """An answer to a message of a lost link goes nowhere, also where the new link's message has its number."""
    with one_lane(program, keys="silence = 3000") as (centre, proxy):
        first = centre.bound()
        with proxy.client() as client:
            first.say(message(DELIVER_SM, 7, "49"))
            old = client.hear()
            first.stream.close()
            second, bind = centre.binding()
            client.say(response(old, body=b"\0"))
            assert second.is_quiet(), "something went out before the bind was answered"
            second.say(response(bind, body=b"centre\0"), message(DELIVER_SM, 7, "49"))
            new = client.hear()
            assert second.is_quiet(), "a message was answered that no client had answered"
            client.say(response(new, body=b"\0"))
            assert second.hear_but_enquiries()[:3] == (DELIVER_SM | RESPONSE, OK, 7)
            assert second.is_quiet(), "a message was answered twice"


def clients_leave_with_messages(program, _):
    """64 clients leave at once with 32 messages each: the centre gets one answer to each."""
    clients, port = 64, free_port()
    accounts = [(f"client{it}", f"49{it:02}") for it in range(clients)]
    with Centre() as centre:
        text = text_of(port, [f"{HOST}:{centre.port}"], accounts, keys=f"clients = {clients}")
        with Proxy(program, port, text) as proxy:
            up = centre.bound()
            links = [proxy.client(name) for name, _ in accounts]
            number = 0
            for _ in range(2):
                # Sixteen for each client, one after another; then sixteen more, which wait in its box.
                for _, prefix in accounts * 16:
                    number += 1
                    up.say(message(DELIVER_SM, number, prefix))
                for link in links if number == 16 * clients else []:
                    for _ in range(16):
                        assert link.hear().command == DELIVER_SM
            assert up.is_quiet(), "a message was answered that no client had answered"
            for link in links:
                link.stream.close()
            heard = collections.Counter(up.hear_but_enquiries()[:3] for _ in range(number))
            wanted = {(DELIVER_SM | RESPONSE, TEMPORARY_ERROR, it): 1 for it in range(1, number + 1)}
            assert heard == wanted, f"{len(wanted.keys() - heard.keys())} of {number} weren't answered with 0x64"
            assert up.is_quiet()


def closing(last, wanted):
    """A case: a client that reads late gets all that was written before the proxy closed, whatever stood behind
    its last PDU."""
    def case(program, _):
        port, asked = free_port(), 3_000
        with Answering() as centre, Proxy(program, port, text_of(port, [f"{HOST}:{centre.port}"])) as proxy:
            with proxy.client() as link:
                enquiries = [request(ENQUIRE_LINK, it) for it in range(2, asked + 2)]
                said = b"".join(map(octets_of, enquiries)) + last + bytes(65_536)
                # (what nobody reads waits for the proxy to drop it, or for its close)
                writer = threading.Thread(target=say_all, args=(link.stream, said), daemon=True)
                writer.start()
                writer.join(1)
                heard = link.rest()
                assert heard[:-1] == [response(it) for it in enquiries], f"{len(heard)} PDUs of {asked + 1} came"
                assert heard[-1][:3] == wanted
    return case


def say_all(stream, octets):
    try:
        stream.sendall(octets)
    except OSError:
        # (the proxy has closed)
        pass


CASES = {
    "answers stay on their link": answers_stay_on_their_link,
    "64 clients leave with 2,048 messages": clients_leave_with_messages,
    "octets behind an unbind": closing(octets_of(request(UNBIND, 9_999)), (UNBIND | RESPONSE, OK, 9_999)),
    "octets behind a bad length": closing(b"\0\0\0\x08", (GENERIC_NACK, INVALID_LENGTH, 0)),
}
