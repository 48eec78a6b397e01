"""Lines: their forms, their levels, and that who came and went is never left out silently."""

import configparser
import json
import pathlib
import re

from .peers import HOST, Answering, Proxy, free_port, text_of
from .smpp import OK, bind_of

FILTER = pathlib.Path(__file__).resolve().parent.parent.parent.parent / "packaging" / "fail2ban" / "smx-filter.conf"
TIME = r"\d{4}-\d\d-\d\dT\d\d:\d\d:\d\d\.\d{3}Z"
# A line in each form. No octet of it can break it.
SHAPES = {
    "text": re.compile(TIME + r" (info|warn|error) [ -~]+"),
    "json": re.compile(r"\{[ -~]+\}"),
    "journal": re.compile(r"<[346]>[ -~]+"),
}
# What stands in fail2ban's expressions for what it finds by itself.
OWN = {"%(__prefix_line)s": "", "<ADDR>": r"(?P<address>[0-9a-f:.]+)"}


def lines_of(program, form):
    """The lines of a proxy that refused two binds, granted one and was stopped, and the addresses of those two."""
    port = free_port()
    with Answering() as centre:
        text = text_of(port, [f"{HOST}:{centre.port}"])
        with Proxy(program, port, text, [program, "serve", "--log", form]) as proxy:
            with proxy.connect() as first, proxy.connect() as second:
                assert first.ask(bind_of('x"\n 10.9.8.7', "secret")).status == 0x0F
                assert second.ask(bind_of("alpha", "wrong")).status == 0x0E
                names = [it.stream.getsockname() for it in (first, second)]
                with proxy.client():
                    assert proxy.stop() == 0, proxy.said()
            lines = proxy.said().splitlines()
    for line in lines:
        assert SHAPES[form].fullmatch(line), line
    return lines, [f"{host}:{port}" for host, port in names]


def lines_as_text(program, _):
    """Each line has its time and its level."""
    lines, addresses = lines_of(program, "text")
    refused = [it for it in lines if f"{addresses[0]}: bind as " in it]
    words = r'bind as "x\"\n 10.9.8.7" refused, 0x0F ESME_RINVSYSID: no such account'
    assert len(refused) == 1 and refused[0].endswith(words), lines


def lines_as_json(program, _):
    """Each line is an object, which has what the words have."""
    lines, addresses = lines_of(program, "json")
    objects = [json.loads(it) for it in lines]
    assert all(re.fullmatch(TIME, it["time"]) and it["text"] for it in objects), lines
    events = [it["event"] for it in objects]
    for event in ("started", "listening", "client_connected", "client_bound", "stopping", "drained", "client_gone"):
        assert event in events, lines
    refused = {it["address"]: it for it in objects if it["event"] == "bind_refused"}
    first, second = (refused[it] for it in addresses)
    assert first["status"] == "0x0F ESME_RINVSYSID" and first["level"] == "warn" and "account" not in first, first
    assert second["status"] == "0x0E ESME_RINVPASWD" and second["account"] == "alpha", second
    bound = next(it for it in objects if it["event"] == "client_bound")
    assert bound["kind"] == "transceiver" and re.fullmatch(r"client \d+", bound["party"]), bound


def lines_for_the_journal(program, _):
    """Each line has the priority of its level, and no time."""
    lines, _ = lines_of(program, "journal")
    assert all(it.startswith("<4>" if " refused, 0x" in it else "<") for it in lines), lines
    assert any(it.startswith("<6>listening on ") for it in lines), lines


def refused_binds_by_a_filter(program, _):
    """The example of a filter for fail2ban finds the addresses of refused binds, and nothing else."""
    found = configparser.ConfigParser(interpolation=None)
    found.read(FILTER)
    wanted = found["Definition"]["failregex"]
    for word, meaning in OWN.items():
        wanted = wanted.replace(word, meaning)
    # (fail2ban takes the time off a line, and the journal the priority)
    for form, own in (("text", TIME + r"\s"), ("journal", r"<\d>")):
        lines, addresses = lines_of(program, form)
        hits = [re.match(wanted, re.sub("^" + own, "", it)) for it in lines]
        hosts = [it.rpartition(":")[0] for it in addresses]
        assert [it["address"] for it in hits if it] == hosts, lines


def lines_from_a_level_on(program, _):
    """Lines below `log_level` aren't written, but for how all stands, which was asked for."""
    port = free_port()
    with Answering() as centre:
        text = text_of(port, [f"{HOST}:{centre.port}"], keys='log_level = "warn"')
        with Proxy(program, port, text) as proxy, proxy.client():
            with proxy.connect() as link:
                assert link.ask(bind_of("alpha", "wrong")).status == 0x0E
            proxy.waits_for(" warn client ")
            proxy.asks("status")
            proxy.waits_for(" info status: ")
            assert proxy.stop() == 0, proxy.said()
            lines = proxy.said().splitlines()
    assert all(" warn " in it or " error " in it or " info status: " in it for it in lines), lines


def who_comes_at_once(program, _):
    """Of more who come and go in a second than are told of, each is counted."""
    port = free_port()
    with Answering() as centre:
        text = text_of(port, [f"{HOST}:{centre.port}"], keys="clients = 128")
        with Proxy(program, port, text) as proxy:
            links = [proxy.connect() for _ in range(60)]
            assert all(it.ask(bind_of("alpha", "secret")).status == OK for it in links)
            assert proxy.stop() == 0, proxy.said()
            said = proxy.said()
    left_out = re.findall(r" warn in the last second \d+ lines were left out: (.*)", said)
    # (one connection more finds out that the proxy listens)
    whole = (("connected", ": connected", 61), ("bound", ": bound as transceiver", 60), ("gone", ": answered no unbind", 60))
    for word, words, count in whole:
        counts = [int(it[1]) for line in left_out for it in [re.search(rf"(\d+) {word}\b", line)] if it]
        told = len(re.findall(rf"client \d+ .*{re.escape(words)}\n", said))
        assert told + sum(counts) == count, f"{word}: {told}, {counts}: {said}"


CASES = {
    "lines as text": lines_as_text,
    "lines as JSON": lines_as_json,
    "lines for the journal": lines_for_the_journal,
    "refused binds by a filter": refused_binds_by_a_filter,
    "lines from a level on": lines_from_a_level_on,
    "who comes at once": who_comes_at_once,
}
