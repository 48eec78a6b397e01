"""What a running proxy is asked for: how all stands, another file; and binds that are refused, few descriptors."""

import contextlib
import os
import resource
import signal

from .peers import HOST, Answering, Centre, Proxy, account, free_port, text_of
from .running import service
from .smpp import ENQUIRE_LINK, OK, PATIENCE, UNBIND, bind_of, request, response

# ESME_RINVPASWD and ESME_RINVSYSID (section 5.1.3).
BAD_PASSWORD, BAD_NAME = 0x0E, 0x0F
# Descriptors that a process may have, and connections that never bind.
FEW, STRANGERS = 64, 100


def few_descriptors(program, _):
    """With 64 descriptors, 256 slots and 100 strangers a lane whose link is lost is bound again at once."""
    port = free_port()
    with Centre() as centre:
        text = text_of(port, [f"{HOST}:{centre.port}"], keys="clients = 256\n[timers]\nreconnect = 200\nbind = 60000")
        few = {"preexec_fn": lambda: resource.setrlimit(resource.RLIMIT_NOFILE, (FEW, FEW))}
        with Proxy(program, port, text, **few) as proxy:
            link = centre.bound()
            proxy.waits_for("clients are let in; raise the limit of open files")
            bound = [proxy.client() for _ in range(STRANGERS // 5)]
            strangers = [proxy.connect() for _ in range(STRANGERS)]
            for _ in range(3):
                link.stream.close()
                link = centre.bound()
            assert "can't be reached" not in proxy.said(), proxy.said()
            assert all(it.ask(request(ENQUIRE_LINK, 2)).status == OK for it in bound)
            for it in (link, *bound, *strangers):
                it.stream.close()


def how_all_stands(program, _):
    """A line `status` says how each upstream and client stands, and how many slots are taken."""
    port = free_port()
    with Answering() as centre:
        with Proxy(program, port, text_of(port, [f"{HOST}:{centre.port}"], keys="clients = 200")) as proxy:
            proxy.waits_for("proxy at " + f"{HOST}:{centre.port}: bound")
            links = [proxy.client() for _ in range(150)]
            proxy.asks("status")
            proxy.waits_for("of 200 slots are taken, ")
            said = [it for it in proxy.said().splitlines() if " info status: " in it]
            assert len([it for it in said if " alpha at " in it and ": transceiver, connected for " in it]) == 150, said
            assert len([it for it in said if " proxy at " in it and ": bound for " in it]) == 1, said
            for link in links:
                link.stream.close()


def read_again(proxy, text, ask):
    """The proxy reads this text in place of its file."""
    words = "nothing is changed: " if "[limits]" not in text else "the configuration was read again, "
    count = proxy.said().count(words)
    proxy.file.write_text(text)
    ask()
    proxy.waits_for_more(words, count)


@contextlib.contextmanager
def by_words(program, words):
    """A proxy that these words start, in a session of its own, beside a centre, and its configuration."""
    port = free_port()
    with Answering() as centre:
        text = text_of(port, [f"{HOST}:{centre.port}"])
        how = {"env": {**os.environ, "SMX": str(program)}, "start_new_session": True}
        with Proxy(program, port, text, words, **how) as proxy:
            yield proxy, text


def another_file(words_of, ask):
    """A case: a file that is read again. One at fault changes nothing."""
    def case(program, _):
        with by_words(program, words_of(program)) as (proxy, text), proxy.client() as first:
            read_again(proxy, text.replace("[limits]", "[limits"), lambda: ask(proxy))
            with proxy.client() as it:
                assert it.ask(request(ENQUIRE_LINK, 2)).status == OK
            other = text.replace('"secret"', '"other"') + account("beta", "50")
            read_again(proxy, other + "\n[timers]\nbind = 1000\n", lambda: ask(proxy))
            proxy.waits_for("its password is another one now; it is unbound")
            unbind = first.hear()
            assert unbind.command == UNBIND, unbind
            first.say(response(unbind))
            assert first.rest() == []
            with proxy.connect() as it:
                assert it.ask(bind_of("alpha", "secret")).status == BAD_PASSWORD
                assert it.ask(bind_of("alpha", "other")).status == OK
            with proxy.client("beta"):
                pass
            with proxy.connect():
                proxy.waits_for("not bound in time")
            last = proxy.connect()
            assert last.ask(bind_of("alpha", "other")).status == OK
            other = text.replace('"secret"', '"other"').replace('["49"]', '["48"]\ncommands = ["submit_sm"]')
            read_again(proxy, other, lambda: ask(proxy))
            proxy.waits_for("its prefixes are others now, and from its next bind on what it may send")
            other = text.replace("alpha", "gamma").replace("[limits]", "clients = 9\n[limits]")
            read_again(proxy, other, lambda: ask(proxy))
            proxy.waits_for("another clients in the file wants a restart")
            proxy.waits_for("its account is gone; it is unbound")
            assert last.hear().command == UNBIND
            last.stream.close()
            with proxy.connect() as it:
                assert it.ask(bind_of("beta", "secret")).status == BAD_NAME
                proxy.waits_for('bind as "beta" refused, 0x0F ESME_RINVSYSID: no such account')
            proxy.child.send_signal(signal.SIGTERM)
            proxy.child.wait(PATIENCE)
    return case


def told_at_usr1(program, _):
    """SIGUSR1 to smx-serve says how all stands, and nothing ends."""
    with by_words(program, service(program)) as (proxy, _text), proxy.client() as link:
        os.killpg(proxy.child.pid, signal.SIGUSR1)
        proxy.waits_for("slots are taken")
        assert link.ask(request(ENQUIRE_LINK, 2)).status == OK
        proxy.child.send_signal(signal.SIGTERM)
        assert proxy.child.wait(PATIENCE) == 0, proxy.said()


CASES = {
    "few descriptors": few_descriptors,
    "how all stands": how_all_stands,
    "another file by a line": another_file(lambda program: [program, "serve"], lambda proxy: proxy.asks("reload")),
    "another file at HUP to smx-serve": another_file(service, lambda proxy: proxy.child.send_signal(signal.SIGHUP)),
    "USR1 to smx-serve": told_at_usr1,
}
