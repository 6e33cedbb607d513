#!/usr/bin/env python3
"""System tests of where a server listens and whom it lets in: `serve --listen`, `--proxied`, `--allow`, `--sessions`,
`--most-from`, `--posts-from`.

listening.py NEWSD [NAME..]"""
import contextlib
import os
import re
import select
import shutil
import signal
import socket
import subprocess
import sys
import time

from newsd import ALL_FROM_ONE, GREETING, SECONDS, SECONDS_OF_WORK, SERVICE_ENDS, Caller, article, end_with_parent, free_port, wait_until
from playing import Skipped, main

DENIED = "502 Access denied"
# networks for documents (RFC 5737, RFC 3849): the server's side of the link, and the caller's
SERVER, CALLER, OTHER = "192.0.2.1", "192.0.2.7", "198.51.100.9"
SERVER_6, CALLER_6 = "2001:db8::1", "2001:db8::7"
SECONDS_OF_A_STOP = 10
# what isn't answered in this time waits
SECONDS_AT_ONCE = 4
TAKEN = "240 Article received"
# more than 128, and no more than the system lets wait
WAITING = 600
# words that are no number of sessions
NO_NUMBERS = ("0", "4097", "-1", "x", "", "1.5", "18446744073709551617")


def a_server_listens_on_several_endpoints(volume):
    """It says so in the order of the words, but first for its port, and serves the same volume on each."""
    require_ipv6()
    volume.make_group()
    first, second, third, port = (free_port() for _ in range(4))
    words = [*ALL_FROM_ONE, "--listen", "127.0.0.1:%d" % first, "--port", str(port), "--listen", "[::1]:%d" % second, "--listen", "0.0.0.0:%d" % third]
    with serving(volume, words, 4) as (_, said):
        assert said == ["listening 127.0.0.1:%d" % port, "listening 127.0.0.1:%d" % first, "listening [::1]:%d" % second,
                        "listening 0.0.0.0:%d" % third], said
        callers = [Caller(port), Caller(first), Caller(second, to="::1"), Caller(third)]
        for number, caller in enumerate(callers):
            assert caller.greeting == GREETING, caller.greeting
            assert caller.post(article(number)) == "240 Article received"
        assert all(caller.ask("GROUP x.a") == "211 4 1 4 x.a" for caller in callers)
        # the sessions are those of all endpoints, for which one address may have all
        callers += [Caller(first if number % 2 else third) for number in range(60)]
        assert all(caller.greeting == GREETING for caller in callers)
        late = Caller(second, to="::1")
        assert late.greeting == SERVICE_ENDS and late.has_ended()
        for caller in [*callers, late]:
            caller.close()


def a_server_needs_no_port_where_it_has_an_endpoint(volume):
    port = free_port()
    with serving(volume, ["--listen", "127.0.0.1:%d" % port], 1) as (_, said):
        assert said == ["listening 127.0.0.1:%d" % port], said
        with Caller(port) as caller:
            assert caller.greeting == GREETING


def callers_from_the_loopback_networks_are_let_in(volume):
    """From each of their addresses, on each endpoint, whatever else is allowed."""
    require_ipv6()
    for allowed in ([], ["--allow", "192.0.2.0/24"]):
        port, port_6, any_port = free_port(), free_port(), free_port()
        words = ["--listen", "0.0.0.0:%d" % port, "--listen", "[::1]:%d" % port_6, "--listen", "[::]:%d" % any_port, *allowed]
        with serving(volume, words, 3):
            for source in ("127.0.0.1", "127.0.0.2", "127.0.0.3", "127.255.255.254"):
                for to, at in (("127.0.0.1", port), ("127.0.0.5", port), ("127.0.0.1", any_port)):
                    with Caller(at, to=to, source=source) as caller:
                        assert caller.greeting == GREETING, (source, to, caller.greeting)
            for at in (port_6, any_port):
                with Caller(at, to="::1", source="::1") as caller:
                    assert caller.greeting == GREETING, caller.greeting
            # an IPv4 address by its IPv6 form
            with Caller(any_port, to="::ffff:127.0.0.1", source="::ffff:127.0.0.9") as caller:
                assert caller.greeting == GREETING, caller.greeting


def an_address_gets_half_of_what_is_free(volume):
    """So one address never has all sessions, the loopback address neither. An IPv4 address by its IPv6 form is the same."""
    require_ipv6()
    port = free_port()
    with serving(volume, ["--listen", "[::]:%d" % port], 1) as (process, _):
        callers = []
        for source, count in (("127.0.0.1", 32), ("127.0.0.2", 16), ("127.9.9.9", 8), ("::1", 4), ("127.0.0.3", 2)):
            to = "::1" if source == "::1" else "127.0.0.1"
            callers += [Caller(port, to=to, source=source) for _ in range(count)]
            assert all(caller.greeting == GREETING for caller in callers), (source, [caller.greeting for caller in callers])
            assert_refused(port, to, source)
        assert_refused(port, "::ffff:127.0.0.1", "::ffff:127.0.0.1")
        # two are free: one for each of two more addresses, and then none
        callers += [Caller(port, source=source) for source in ("127.0.0.4", "127.0.0.5")]
        assert all(caller.greeting == GREETING for caller in callers[-2:])
        assert_refused(port, "127.0.0.1", "127.0.0.6")
        assert refusals(process) == ["address"] * 6 + ["sessions"]
        for caller in callers:
            caller.close()


def assert_refused(port, to, source):
    """A caller from an address gets no session."""
    with Caller(port, to=to, source=source) as late:
        assert late.greeting == SERVICE_ENDS and late.has_ended(), (source, late.greeting)


def refusals(process):
    """Why a server refused callers, by its log. It is stopped."""
    assert_stops(process)
    found = [re.search(r" event=refused .* why=(\w+) times=(\d+)$", line.decode()) for line in process.stderr]
    return [cause for line in found if line for cause in [line.group(1)] * int(line.group(2))]


def an_address_gets_as_many_as_it_may(volume):
    for most in (1, 3, 40, 64):
        with volume.serve(words=["--most-from", str(most)]) as server:
            sources = ["127.0.0.1", "127.0.0.2"] if most < 32 else ["127.0.0.1"]
            callers = [Caller(server.port, source=source) for source in sources for _ in range(most)]
            assert all(caller.greeting == GREETING for caller in callers), most
            for source in sources:
                assert_refused(server.port, "127.0.0.1", source)
            callers.pop(0).close()
            callers.append(server.greet(10))
            assert callers[-1].ask("DATE")[:3] == "111"
            found = refusals(server.process)
            assert set(found) == {"sessions" if most == 64 else "address"} and len(found) >= len(sources), found
            for caller in callers:
                caller.close()
    for word in NO_NUMBERS:
        assert_no_number(volume, "--most-from", word)


def what_an_address_posts_in_a_minute_may_be_limited(volume):
    """Its further articles wait, by another session, too. Those of others don't, nor do its other commands, and nothing is refused. A drop and a
    stop end what waits."""
    volume.make_group()
    with volume.serve(words=["--posts-from", "2", *ALL_FROM_ONE]) as server:
        poster, second = (Caller(server.port, seconds=SECONDS_OF_WORK) for _ in range(2))
        # the minutes are the server's, so these may be of two
        assert 2 <= posts_until_one_waits(poster, range(1, 6)) <= 4
        assert second.ask("DATE")[:3] == "111"
        assert not is_taken_at_once(second, 6)
        with Caller(server.port, source="127.0.0.2") as other:
            assert other.post(article(7)) == TAKEN
        # both are taken in the next minute, which is used up then
        assert poster.line() == second.line() == TAKEN
        with server.call() as third:
            began = time.monotonic()
            assert not is_taken_at_once(third, 8)
            assert server.order("drop 127.0.0.1") == "dropped 3"
            assert third.has_ended()
        with server.call() as late:
            assert not is_taken_at_once(late, 9)
            assert_stops(server.process)
        assert time.monotonic() - began < 2 * (SECONDS_AT_ONCE + SECONDS_OF_A_STOP)
    for word in ("0", "1000001", "-1", "x", ""):
        done = volume.run("serve", volume.path, "--port", str(free_port()), "--posts-from=" + word)
        assert (done.returncode, done.stderr.decode()) == (1, "newsd: E14 Bad: --posts-from '%s' is no number from 1 to 1000000\n" % word), done


def posts_until_one_waits(caller, numbers):
    """How many articles of a caller are taken before one waits."""
    for taken, number in enumerate(numbers):
        if not is_taken_at_once(caller, number):
            return taken
    raise AssertionError("none of %d articles waits" % len(numbers))


def is_taken_at_once(caller, number):
    """Whether an article that a caller posts is."""
    assert caller.ask("POST")[:3] == "340"
    caller.send(article(number))
    if not select.select([caller.socket], [], [], SECONDS_AT_ONCE)[0]:
        return False
    assert caller.line() == TAKEN
    return True


def a_server_has_as_many_sessions_as_it_is_told(volume):
    for most in (1, 3, 100):
        with volume.serve(words=["--sessions", str(most), "--most-from", str(most)]) as server:
            callers = [server.call() for _ in range(most)]
            assert all(caller.greeting == GREETING and caller.ask("DATE")[:3] == "111" for caller in callers), most
            assert_refused(server.port, "127.0.0.1", "127.0.0.1")
            assert " sessions %d " % most in server.order("status"), most
            callers.pop().close()
            with server.greet(10) as later:
                assert later.ask("DATE")[:3] == "111"
                found = refusals(server.process)
            assert found and set(found) == {"sessions"}, found
            for caller in callers:
                caller.close()
    for word in NO_NUMBERS:
        assert_no_number(volume, "--sessions", word)


def as_many_callers_can_wait_as_may_have_sessions(volume):
    """While the server stands still, the system lets in as many callers as may have sessions. Others would try again after a second."""
    with open("/proc/sys/net/core/somaxconn", encoding="ascii") as most:
        if int(most.read()) < WAITING:
            raise Skipped("the system lets fewer callers wait")
    port = free_port()
    with serving(volume, ["--port", str(port), "--sessions", str(WAITING)], 1) as (process, _):
        os.kill(process.pid, signal.SIGSTOP)
        callers = []
        try:
            for _ in range(WAITING):
                callers.append(socket.socket())
                callers[-1].setblocking(False)
                callers[-1].connect_ex(("127.0.0.1", port))
            time.sleep(1)
            waiting = select.poll()
            for caller in callers:
                waiting.register(caller, select.POLLOUT)
            let_in = sum(event == select.POLLOUT for _, event in waiting.poll(0))
            assert let_in == WAITING, let_in
        finally:
            os.kill(process.pid, signal.SIGCONT)
            for caller in callers:
                caller.close()


def threads_are_started_as_callers_come(volume):
    """So a server of many sessions has no more threads than one of few, as long as few callers come."""
    def threads(server):
        return len(os.listdir("/proc/%d/task" % server.process.pid))

    with volume.serve(words=["--sessions", "1"]) as one, volume.another("many").serve(words=["--sessions", "4096"]) as many:
        callers = [one.call(), many.call()]
        # who is greeted comes after the threads that are there from the start, with those of the first session
        assert threads(many) == threads(one)
        callers += [many.call() for _ in range(9)]
        assert all(caller.ask("DATE")[:3] == "111" for caller in callers)
        # two more for each of the others
        assert threads(many) == threads(one) + 18
        for caller in callers:
            caller.close()
        # they stay for later callers
        wait_until(lambda: " sessions 0 " in many.order("status"))
        callers = [many.greet(10) for _ in range(5)]
        assert threads(many) == threads(one) + 18
        for caller in callers:
            caller.close()


def assert_no_number(volume, option, word):
    done = volume.run("serve", volume.path, "--port", str(free_port()), option + "=" + word)
    said = "newsd: E14 Bad: %s '%s' is no number from 1 to 4096\n" % (option, word)
    assert (done.returncode, done.stdout, done.stderr.decode()) == (1, b"", said), (option, word, done)


def proxied(address, port=50412, place="127.0.0.1"):
    """The line by which a proxy says for whom it connects."""
    return ("PROXY %s %s %s %d 563\r\n" % ("TCP6" if ":" in address else "TCP4", address, place, port)).encode()


@contextlib.contextmanager
def serving_proxies(volume, *words):
    """A server with a port for callers and one for proxies."""
    volume.make_group()
    port, by_proxy = free_port(), free_port()
    own = ["--port", str(port), "--proxied", "127.0.0.1:%d" % by_proxy, *words]
    with serving(volume, own, 2) as (process, said):
        assert said == ["listening 127.0.0.1:%d" % port, "listening 127.0.0.1:%d" % by_proxy], said
        yield process, port, by_proxy


def who_calls_by_a_proxy_is_judged_by_its_own_address(volume):
    """Whether it is let in, how many sessions its address has, and what the log calls it."""
    with serving_proxies(volume, "--allow", "192.0.2.0/24", "--allow", "2001:db8::/32", "--most-from", "2") as (process, port, by_proxy):
        for address, place, greeting in (
            ("192.0.2.7", "127.0.0.1", GREETING), ("192.0.2.255", "192.0.2.1", GREETING), ("198.51.100.9", "127.0.0.1", DENIED),
            ("2001:db8::7", "::1", GREETING), ("2001:db9::7", "::1", DENIED), ("::ffff:192.0.2.8", "::1", GREETING),
            ("::ffff:198.51.100.9", "::1", DENIED), ("127.0.0.1", "127.0.0.1", GREETING), ("0.0.0.0", "127.0.0.1", DENIED),
        ):
            with Caller(by_proxy, first=proxied(address, place=place)) as caller:
                assert caller.greeting == greeting, (address, caller.greeting)
                assert greeting == DENIED or caller.ask("QUIT") == "205 Bye", address
                assert caller.has_ended()
        # what was sent with the line is answered, however the octets come
        with Caller(by_proxy, first=proxied("192.0.2.9") + b"DATE\r\nGROUP x.a\r\n") as caller:
            assert (caller.greeting, caller.line()[:3], caller.line()) == (GREETING, "111", "211 0 1 0 x.a")
        callers = [slowly(by_proxy, proxied("192.0.2.7")), Caller(by_proxy, first=proxied("192.0.2.7"))]
        assert [it.greeting for it in callers] == [GREETING] * 2
        for address, greeting in (("192.0.2.7", SERVICE_ENDS), ("192.0.2.8", GREETING)):
            callers.append(Caller(by_proxy, first=proxied(address)))
            assert callers[-1].greeting == greeting, address
        # a proxy that doesn't say for whom it connects is a caller of its own address, as those are that connect themselves
        callers += [Caller(port), Caller(by_proxy, first=b"PROXY UNKNOWN\r\n"), Caller(port), Caller(by_proxy, first=b"PROXY UNKNOWN any thing\r\n")]
        assert [it.greeting for it in callers[-4:]] == [GREETING] * 2 + [SERVICE_ENDS] * 2
        for caller in callers:
            caller.close()
        assert_stops(process)
        log = [line.decode() for line in process.stderr]
        found = [re.search(r" event=refused peer=(\S+) why=(\w+) times=1$", line) for line in log]
        found = [it.groups() for it in found if it]
        assert found[:3] == [("198.51.100.9:50412", "access"), ("[2001:db9::7]:50412", "access"), ("[::ffff:198.51.100.9]:50412", "access")], log
        assert ("192.0.2.7:50412", "address") in found, log
        ended = [line for line in log if " event=end peer=192.0.2.7:50412 " in line]
        assert len(ended) == 3, log


def slowly(port, first):
    """A caller by a proxy whose line comes octet by octet."""
    connection = socket.create_connection(("127.0.0.1", port), SECONDS)
    for octet in first[:-1]:
        connection.sendall(bytes([octet]))
        time.sleep(0.002)
    caller = Caller.__new__(Caller)
    caller.socket, caller.file = connection, connection.makefile("rb")
    caller.send(first[-1:])
    caller.greeting = caller.line()
    return caller


def what_is_no_line_of_a_proxy_ends_the_connection(volume):
    """Nothing is answered, nothing is posted, and the log says it."""
    whole = proxied("192.0.2.7")
    lines = [b"DATE\r\n", b"\r\n", b"\n", whole.lower(), whole[:-2] + b"\n", whole[:-2] + b" \r\n", whole.replace(b"TCP4", b"TCP6"),
             whole.replace(b"50412", b"65536"), whole.replace(b"50412", b"050412"), whole.replace(b"192.0.2.7", b"192.0.2.300"),
             b"PROXY TCP4\r\n", b"PROXY UNKNOWN " + 92 * b"x" + b"\r\n", 200 * b"x", b"\x0d\x0a\x0d\x0a\x00\x0d\x0a\x51\x55\x49\x54\x0a",
             b"POST / HTTP/1.1\r\nHost: 127.0.0.1\r\n\r\nPOST\r\n" + article(1)]
    with serving_proxies(volume, "--allow", "0.0.0.0/0") as (process, port, by_proxy):
        for line in lines:
            with Caller(by_proxy, first=line) as caller:
                assert caller.greeting == "" and caller.has_ended(), (line, caller.greeting)
        # the longest line is one, and a part of one is none
        with Caller(by_proxy, first=b"PROXY UNKNOWN " + 91 * b"x" + b"\r\n") as caller:
            assert caller.greeting == GREETING and caller.ask("STAT <1@a.example>") == "430 No such article"
        with socket.create_connection(("127.0.0.1", by_proxy), SECONDS) as part:
            part.sendall(whole[:-1])
            part.shutdown(socket.SHUT_WR)
            assert part.recv(1) == b""
        assert refusals(process) == ["proxy"] * (len(lines) + 1)


def a_proxy_that_says_nothing_is_let_go(volume):
    """After thirty seconds. Until then such proxies have half of the sessions at most, and the server stops as quickly as ever."""
    with serving_proxies(volume) as (process, port, by_proxy):
        began = time.monotonic()
        silent = [socket.create_connection(("127.0.0.1", by_proxy), 2 * SECONDS) for _ in range(40)]
        dripping = silent[0]
        dripping.sendall(b"PROXY ")
        with Caller(port) as caller:
            assert caller.greeting == GREETING and caller.ask("DATE")[:3] == "111"
        said = [it.recv(100) for it in silent[32:]]
        assert said == [SERVICE_ENDS.encode() + b"\r\n"] * 8, said
        for _ in range(20):
            time.sleep(1)
            dripping.sendall(b"x")
        assert [it.recv(100) for it in silent[:32]] == [b""] * 32
        lasted = time.monotonic() - began
        assert 29 < lasted < 34, lasted
        late = socket.create_connection(("127.0.0.1", by_proxy), SECONDS)
        time.sleep(0.1)
        found = refusals(process)
        assert found.count("proxy") == 32 and found.count("address") == 8 and found.count("halted") == 1, found
        for caller in [late, *silent]:
            caller.close()


def words_that_are_no_endpoint_or_network_are_refused(volume):
    good = ["--listen", "127.0.0.1:%d" % free_port()]
    for word in ("127.0.0.1", ":1119", "127.0.0.1:", "127.0.0.1:0", "127.0.0.1:65536", "127.0.0.1:1119x", "127.0.0.1:-1", "1119",
                 "localhost:1119", "::1:1119", "[::1]", "[::1]:", "[::1]:0", "[127.0.0.1]:1119", "256.0.0.1:1119", "127.0.0.1 :1119",
                 "127.1:1119", "", "*:1119", "[::1]:1119 ", "[::g]:1119", "[fe80::1%1]:1119", "[::1%0]:1119"):
        for words in (["--listen", word], [*good, "--listen", word]):
            assert_bad(volume, words, word)
    for word in ("", "192.0.2", "192.0.2.0/33", "192.0.2.0/", "192.0.2.0/-1", "192.0.2.0/x", "/24", "2001:db8::/129", "localhost",
                 "192.0.2.0-192.0.2.9", "192.0.2.0/255.255.255.0", "[2001:db8::1]", "192.0.2.7:119", "192.0.2.0/24 ", "2001:db8:/32",
                 "all", "*", "192.0.2.0//24"):
        for words in ([*good, "--allow", word], [*good, "--allow", "192.0.2.7", "--allow", word]):
            assert_bad(volume, words, word)
    for words in ([], ["--allow", "192.0.2.7"], ["--quiet"], ["--listen"]):
        done = volume.run("serve", volume.path, *words)
        assert done.returncode == 2 and done.stdout == b"" and done.stderr, (words, done)


def proxies_are_of_the_machine_itself(volume):
    good = ["--listen", "127.0.0.1:%d" % free_port()]
    for word in ("192.0.2.1:1563", "0.0.0.0:1563", "[::]:1563", "[2001:db8::1]:1563", "128.0.0.1:1563", "[::ffff:192.0.2.1]:1563", "127.0.0.1",
                 "1563", "localhost:1563", "", "127.0.0.1:0"):
        for words in (["--proxied", word], [*good, "--proxied", word]):
            assert_bad(volume, words, word)
    for address in ("127.0.0.1", "127.9.9.9"):
        with serving(volume, ["--proxied", "%s:%d" % (address, free_port())], 1) as (process, _):
            assert_stops(process)


def assert_bad(volume, words, word):
    """The last of these words is outside its grammar."""
    forms = {"--listen": "ADDRESS:PORT", "--allow": "ADDRESS or ADDRESS/LENGTH", "--proxied": "ADDRESS:PORT of 127.0.0.0/8 or ::1"}
    said = "newsd: E14 Bad: %s '%s' is no %s\n" % (words[-2], word, forms[words[-2]])
    done = volume.run("serve", volume.path, *words)
    assert (done.returncode, done.stdout, done.stderr.decode()) == (1, b"", said), (words, done)


def an_endpoint_that_is_taken_is_refused(volume):
    """Nothing is served then, on the others neither, and the volume is free."""
    volume.make_group()
    with socket.socket() as other:
        other.bind(("127.0.0.1", 0))
        other.listen()
        taken, port = other.getsockname()[1], free_port()
        done = volume.run("serve", volume.path, "--port", str(port), "--listen", "127.0.0.1:%d" % taken)
        said = "newsd: can't listen on 127.0.0.1:%d: Address already in use" % taken
        assert (done.returncode, done.stdout) == (1, b"") and done.stderr.decode().startswith(said) and done.stderr.count(b"\n") == 1, done
    assert volume.dump() == ["spool 1", "1 group x.a y"]


def callers_from_elsewhere_are_let_in_where_a_network_holds_them(volume):
    """A link of its own, with callers at its other end."""
    volume.make_group()
    with Link() as link:
        for allowed, in_4, in_6 in (
            ([], False, False),
            ([CALLER], True, False),
            (["192.0.2.8", "198.51.100.0/24"], False, False),
            (["192.0.2.0/24"], True, False),
            (["192.0.2.4/30"], True, False),
            (["192.0.2.8/29"], False, False),
            # bits after the prefix are ignored
            (["192.0.2.99/25"], True, False),
            (["0.0.0.0/0"], True, False),
            ([CALLER_6], False, True),
            (["2001:db8::/32"], False, True),
            (["2001:db8::/126"], False, False),
            (["2001:db8::6/127"], False, True),
            (["::/0"], False, True),
            (["::ffff:192.0.2.7"], True, False),
            (["::ffff:192.0.2.0/120"], True, False),
            (["192.0.2.8", "2001:db9::/32", "2001:db8::7/128", CALLER], True, True),
        ):
            words = [word for network in allowed for word in ("--allow", network)]
            port, port_6, any_port = free_port(), free_port(), free_port()
            words += ["--listen", "%s:%d" % (SERVER, port), "--listen", "[%s]:%d" % (SERVER_6, port_6), "--listen", "[::]:%d" % any_port]
            with serving(volume, words, 3, by=link.by):
                for to, at, source, is_let_in in (
                    (SERVER, port, CALLER, in_4), (SERVER, any_port, CALLER, in_4),
                    (SERVER_6, port_6, CALLER_6, in_6), (SERVER_6, any_port, CALLER_6, in_6),
                ):
                    link.call(to, at, source, is_let_in)
                # those on the server's own side of the link call by an address of it, too
                assert link.asks(link.near, "::1", any_port, "::1") == [GREETING, "205 Bye", ""]


def a_caller_that_is_not_let_in_takes_no_session(volume):
    """A thousand of them, while the server has its 64 sessions and after."""
    volume.make_group()
    with Link() as link:
        port = free_port()
        with serving(volume, ["--listen", "0.0.0.0:%d" % port], 1, by=link.by) as (process, _):
            said = link.asks(link.far, SERVER, port, CALLER, times=1000)
            assert said == [DENIED, ""] * 1000, said[:4]
            process.stdin.write(b"status\n")
            process.stdin.flush()
            line = process.stdout.readline().decode()
            assert " sessions 0 " in line and " accepted 1 " in line, line
            assert link.asks(link.near, "127.0.0.1", port, "127.0.0.1") == [GREETING, "205 Bye", ""]


def a_stop_ends_listeners_that_nobody_can_call(volume):
    """Also those of addresses for many machines at once."""
    for address in ("127.0.0.1", "0.0.0.0", "224.0.0.1", "255.255.255.255"):
        with serving(volume, ["--listen", "%s:%d" % (address, free_port())], 1) as (process, _):
            assert_stops(process)


def a_stop_needs_no_way_to_a_listener(volume):
    """Its address was removed, no interface is up, or IPv6 is off."""
    for words in (["ip", "addr", "del", "%s/24" % SERVER, "dev", "near"], ["ip", "link", "set", "lo", "down"],
                  ["sh", "-c", "for it in all default lo near; do echo 1 >/proc/sys/net/ipv6/conf/$it/disable_ipv6; done"]):
        with Link() as link:
            listens = ["--listen", "%s:%d" % (SERVER, free_port()), "--listen", "0.0.0.0:%d" % free_port(), "--listen", "[::]:%d" % free_port()]
            with serving(volume, listens, 3, by=link.by) as (process, _):
                done = subprocess.run([*link.near, *words], capture_output=True, text=True, timeout=SECONDS)
                if done.returncode:
                    raise Skipped("that can't be done here: %s: %s" % (words, done.stderr.strip()))
                assert_stops(process)


def a_stop_tells_callers_that_wait(volume):
    """The process stands still while they come, and while it is told to stop."""
    volume.make_group()
    ports = free_port(), free_port()
    with serving(volume, [word for port in ports for word in ("--listen", "127.0.0.1:%d" % port)], 2) as (process, _):
        os.kill(process.pid, signal.SIGSTOP)
        sockets = [socket.create_connection(("127.0.0.1", port), SECONDS) for port in ports for _ in range(50)]
        process.stdin.write(b"stop\n")
        process.stdin.flush()
        os.kill(process.pid, signal.SIGCONT)
        said = []
        for caller in sockets:
            with caller, caller.makefile("rb") as file:
                said.append(file.read().decode().rstrip("\r\n"))
        assert set(said) <= {GREETING, SERVICE_ENDS}, said
        assert process.stdout.readline() == b"stopped\n" and process.wait(SECONDS_OF_A_STOP) == 0
        print("  %d of %d callers were told" % (said.count(SERVICE_ENDS), len(said)), flush=True)


def assert_stops(process):
    process.stdin.write(b"stop\n")
    process.stdin.flush()
    assert process.stdout.readline() == b"stopped\n"
    assert process.wait(SECONDS_OF_A_STOP) == 0, process.stderr.read()


class Link:
    """Two network namespaces with a link between them. A process stands in each of them as long as the link is wanted."""

    def __enter__(self):
        if not all(map(shutil.which, ("unshare", "nsenter", "ip"))):
            raise Skipped("there are no tools for namespaces of a network")
        self.processes = []
        try:
            self.near = self.namespace([])
            self.far = self.namespace(self.near)
            # the number that the far process has for the namespaces of this one
            far = str(self.processes[1].pid)
            for side, words in (
                (self.near, "link add near type veth peer name far"), (self.near, "link set far netns " + far),
                (self.near, "addr add %s/24 dev near" % SERVER), (self.near, "addr add %s/64 dev near nodad" % SERVER_6),
                (self.near, "link set near up"), (self.near, "link set lo up"),
                (self.far, "addr add %s/24 dev far" % CALLER), (self.far, "addr add %s/64 dev far nodad" % CALLER_6),
                (self.far, "link set far up"), (self.far, "link set lo up"),
            ):
                done = subprocess.run([*side, "ip", *words.split()], capture_output=True, text=True, timeout=SECONDS)
                if done.returncode:
                    raise Skipped("no link can be made here: ip %s: %s" % (words, done.stderr.strip()))
        except BaseException:
            self.__exit__()
            raise
        self.by = self.near
        return self

    def __exit__(self, *_):
        for process in self.processes:
            process.kill()
            process.wait(SECONDS)
            process.stdout.close()

    def namespace(self, within):
        """The words that run a program in a new namespace."""
        rights = [] if os.getuid() == 0 else ["--user", "--map-root-user"]
        words = [*within, "unshare", *(rights if not within else []), "--net", "sh", "-c", "echo there; exec sleep 600"]
        process = subprocess.Popen(words, stdin=subprocess.DEVNULL, stdout=subprocess.PIPE, stderr=subprocess.DEVNULL,
                                   preexec_fn=end_with_parent)
        self.processes.append(process)
        if process.stdout.readline() != b"there\n":
            raise Skipped("no namespace of a network can be had here")
        entered = ["--user", "--preserve-credentials"] if rights else []
        return ["nsenter", "--target", str(process.pid), *entered, "--net", "--"]

    def asks(self, side, to, port, source, times=1):
        """The greeting and the reply to QUIT that callers get in one of the namespaces, or the greeting and its end."""
        words = [*side, sys.executable, "-B", os.path.abspath(__file__), "--call", to, str(port), source, str(times)]
        done = subprocess.run(words, capture_output=True, text=True, timeout=2 * SECONDS)
        assert done.returncode == 0, done
        return done.stdout.split("\n")[:-1]

    def call(self, to, port, source, is_let_in):
        said = self.asks(self.far, to, port, source)
        assert said == ([GREETING, "205 Bye", ""] if is_let_in else [DENIED, ""]), (to, source, is_let_in, said)


def call(to, port, source, times):
    """What a caller in a namespace is told."""
    for _ in range(int(times)):
        with Caller(int(port), to=to, source=source) as caller:
            print(caller.greeting)
            if caller.greeting == GREETING:
                print(caller.ask("QUIT"))
            print(caller.line())


@contextlib.contextmanager
def serving(volume, words, lines, by=()):
    """A server with these words, and the first lines that it says."""
    process = subprocess.Popen([*by, volume.program, "serve", volume.path, *words], stdin=subprocess.PIPE, stdout=subprocess.PIPE,
                               stderr=subprocess.PIPE, preexec_fn=end_with_parent)
    with process:
        try:
            said = [process.stdout.readline().decode().rstrip("\n") for _ in range(lines)]
            assert all(it.startswith("listening ") for it in said), (words, said, process.stderr.read())
            yield process, said
        finally:
            process.kill()


def require_ipv6():
    try:
        with socket.socket(socket.AF_INET6) as probe:
            probe.bind(("::1", 0))
    except OSError:
        raise Skipped("this machine has no IPv6")


TESTS = [
    a_server_listens_on_several_endpoints,
    a_server_needs_no_port_where_it_has_an_endpoint,
    callers_from_the_loopback_networks_are_let_in,
    an_address_gets_half_of_what_is_free,
    an_address_gets_as_many_as_it_may,
    what_an_address_posts_in_a_minute_may_be_limited,
    a_server_has_as_many_sessions_as_it_is_told,
    as_many_callers_can_wait_as_may_have_sessions,
    threads_are_started_as_callers_come,
    who_calls_by_a_proxy_is_judged_by_its_own_address,
    what_is_no_line_of_a_proxy_ends_the_connection,
    a_proxy_that_says_nothing_is_let_go,
    words_that_are_no_endpoint_or_network_are_refused,
    proxies_are_of_the_machine_itself,
    an_endpoint_that_is_taken_is_refused,
    callers_from_elsewhere_are_let_in_where_a_network_holds_them,
    a_caller_that_is_not_let_in_takes_no_session,
    a_stop_ends_listeners_that_nobody_can_call,
    a_stop_needs_no_way_to_a_listener,
    a_stop_tells_callers_that_wait,
]


if __name__ == "__main__":
    if sys.argv[1] == "--call":
        call(*sys.argv[2:])
        sys.exit(0)
    sys.exit(main(TESTS))
