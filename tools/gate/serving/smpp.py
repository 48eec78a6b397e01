"""PDUs of SMPP 3.4, and a link that says and hears them."""

import socket
import struct
from collections import namedtuple

# Commands (section 5.1.2.1) and statuses (section 5.1.3).
RESPONSE = 0x80000000
GENERIC_NACK = 0x80000000
SUBMIT_SM = 0x00000004
DELIVER_SM = 0x00000005
UNBIND = 0x00000006
BIND_TRANSCEIVER = 0x00000009
ENQUIRE_LINK = 0x00000015
OK = 0x00
INVALID_LENGTH = 0x02
QUEUE_FULL = 0x14
# What a request is answered that no lane takes.
NOT_TAKEN = QUEUE_FULL
SUBMIT_FAILED = 0x45
TEMPORARY_ERROR = 0x64
# What a test waits for comes within these seconds, or never.
PATIENCE = 40
# Within these seconds nothing comes where nothing may.
QUIET = 0.4

Pdu = namedtuple("Pdu", "command status number body")


class Gone(Exception):
    """The peer closed the link, or nothing came in time."""


class Silent(Gone):
    """Nothing came in time."""


def octets_of(pdu):
    """The octets of a PDU (section 3.2): length, command, status and number of four octets each, and the body."""
    return struct.pack(">IIII", 16 + len(pdu.body), pdu.command, pdu.status, pdu.number) + pdu.body


def request(command, number, body=b""):
    return Pdu(command, OK, number, body)


def response(of, status=OK, body=b""):
    return Pdu(of.command | RESPONSE, status, of.number, body)


def bind_of(name, password, number=1):
    """A bind_transceiver (section 4.1.5) of interface version 3.4."""
    return request(BIND_TRANSCEIVER, number, f"{name}\0{password}\0\0".encode() + b"\x34\0\0\0")


def message(command, number, destination, text=b"hello"):
    """A submit_sm or deliver_sm (sections 4.4.1, 4.6.1) to a destination."""
    addresses = b"\0\0\0\0\0\0" + destination.encode() + b"\0"
    return request(command, number, addresses + b"\0\0\0\0\0\0\0\0\0" + bytes([len(text)]) + text)


def long_message(number, destination, octets):
    """A submit_sm with so many octets in an optional parameter message_payload (section 5.3.2.32)."""
    short = message(SUBMIT_SM, number, destination, b"")
    return short._replace(body=short.body + struct.pack(">HH", 0x0424, octets) + bytes(octets))


class Link:
    """A connection of either side."""

    def __init__(self, stream):
        self.stream, self.octets = stream, b""
        stream.setsockopt(socket.IPPROTO_TCP, socket.TCP_NODELAY, 1)
        stream.settimeout(PATIENCE)

    def __enter__(self):
        return self

    def __exit__(self, *_):
        self.stream.close()

    def say(self, *pdus):
        self.stream.sendall(b"".join(octets_of(it) for it in pdus))

    def hear(self, patience=PATIENCE):
        """The next PDU."""
        self.stream.settimeout(patience)
        while len(self.octets) < 16 or len(self.octets) < struct.unpack_from(">I", self.octets)[0]:
            try:
                more = self.stream.recv(1 << 16)
            except socket.timeout:
                raise Silent("nothing came in time") from None
            if not more:
                raise Gone("the peer closed the link")
            self.octets += more
        length, command, status, number = struct.unpack_from(">IIII", self.octets)
        body, self.octets = self.octets[16:length], self.octets[length:]
        return Pdu(command, status, number, body)

    def hear_but_enquiries(self, patience=PATIENCE):
        """The next PDU that is no enquire_link; each of those is answered."""
        while True:
            pdu = self.hear(patience)
            if pdu.command != ENQUIRE_LINK:
                return pdu
            self.say(response(pdu))

    def is_quiet(self, seconds=QUIET):
        """Whether nothing but enquiries comes for a while."""
        try:
            self.hear_but_enquiries(seconds)
        except Silent:
            return True
        return False

    def ask(self, pdu):
        """Says a request and gives the next PDU, which has to be its response."""
        self.say(pdu)
        answer = self.hear_but_enquiries()
        assert (answer.command, answer.number) == (pdu.command | RESPONSE, pdu.number), f"{pdu} was answered {answer}"
        return answer

    def rest(self):
        """All PDUs until the peer closes the link in order."""
        found = []
        try:
            while True:
                found.append(self.hear())
        except Gone as why:
            assert "closed" in str(why), f"{why} behind {len(found)} PDUs"
        return found
