#!/usr/bin/env python3
"""System tests of the file that a server writes for a monitor. metrics.py NEWSD [NAME..]"""
import json
import os
import re
import shutil
import subprocess
import sys
import time
import urllib.request

from newsd import GREETING, SERVICE_ENDS, Caller, article, end_with_parent, free_port, octets, wait_until
from playing import Skipped, main

# the file is written every fifteen seconds
SECONDS_OF_A_WRITING = 20
STARTED = {
    "newsd_sessions": "gauge", "newsd_sessions_begun_total": "counter", "newsd_sessions_ended_total": "counter",
    "newsd_callers_refused_total": "counter", "newsd_posts_accepted_total": "counter", "newsd_posts_refused_total": "counter",
    "newsd_changes_accepted_total": "counter", "newsd_changes_durable_total": "counter", "newsd_articles_gone": "gauge",
    "newsd_blocks": "gauge", "newsd_blocks_used": "gauge", "newsd_inodes": "gauge", "newsd_inodes_used": "gauge",
    "newsd_batches_total": "counter", "newsd_syncs_total": "counter", "newsd_commit_seconds": "summary",
    "newsd_received_bytes_total": "counter", "newsd_sent_bytes_total": "counter", "newsd_kernel_wait_seconds_max": "gauge",
}
CALLER_CAUSES = ["access", "sessions", "address", "descriptors", "memory", "failed", "proxy", "halted"]
POST_CAUSES = ["octets", "noend", "field", "twice", "missing", "id", "groups", "long", "repeat", "nogroup", "closed", "otherid", "full",
               "memory", "stopped"]
SAMPLE = re.compile(r'(newsd_[a-z_]+(?:\{(?:state|cause)="[a-z]+"\})?) (\d+(?:e-6)?)\Z')


class Metrics:
    """A server whose numbers go into a file."""

    def __init__(self, volume, words=()):
        self.path = os.path.join(os.path.dirname(volume.path), "newsd.prom")
        self.server = volume.serve(words=["--metrics", self.path, *words])
        wait_until(lambda: octets(self.path))

    def read(self):
        """The values by their names, and the types."""
        values, types, name = {}, {}, None
        for line in octets(self.path).decode("ascii").splitlines():
            if line.startswith("# HELP "):
                name = line.split(" ", 3)[2]
                assert line.split(" ", 3)[3].endswith("."), line
            elif line.startswith("# TYPE "):
                assert line.split(" ")[2] == name and name not in types, line
                types[name] = line.split(" ")[3]
            else:
                told = SAMPLE.match(line)
                assert told and told.group(1).startswith(name) and told.group(1) not in values, line
                values[told.group(1)] = float(told.group(2))
        assert types == STARTED, types
        return values

    def wait(self, is_so):
        """The values of the next writing of which this holds."""
        wait_until(lambda: is_so(self.read()), SECONDS_OF_A_WRITING)
        return self.read()

    def end(self):
        """The values that are left after a stop, and the lines of the log."""
        assert self.server.order("stop") == "stopped"
        assert self.server.process.wait(10) == 0
        return self.read(), self.server.process.stderr.read().decode().splitlines()


def cause(kind, name):
    return 'newsd_%s_refused_total{cause="%s"}' % (kind, name)


def told(lines, event, name):
    """The sum of a field over the lines of an event."""
    return sum(int(dict(field.split("=", 1) for field in line.split(" "))[name]) for line in lines if " event=%s " % event in line)


def the_file_tells_what_callers_did(volume):
    volume.make_group()
    metrics = Metrics(volume)
    with metrics.server as server:
        first = metrics.read()
        assert [first[cause("callers", name)] for name in CALLER_CAUSES] == [0] * 8
        assert [first[cause("posts", name)] for name in POST_CAUSES] == [0] * 15
        assert (first["newsd_changes_accepted_total"], first["newsd_changes_durable_total"]) == (1, 1)
        assert (first["newsd_blocks"], first["newsd_inodes"], first["newsd_inodes_used"]) == (8192, 4096, 3)
        with server.call() as caller, server.call() as other, server.call() as third:
            assert caller.post(article(1)) == caller.post(article(2)) == "240 Article received"
            elsewhere = article(3).replace(b"Newsgroups: x.a", b"Newsgroups: x.b")
            for bad in (article(1), elsewhere, article(4).replace(b"Subject: one\r\n", b"")):
                assert caller.post(bad) == "441 Article not accepted"
            assert other.ask("POST").startswith("340") and third.ask("QUIT") == "205 Bye"
            seen = metrics.wait(lambda values: values["newsd_sessions_ended_total"] == 1)
            assert [seen['newsd_sessions{state="%s"}' % state] for state in ("idle", "sending", "held")] == [1, 1, 0], seen
            assert seen["newsd_sessions_begun_total"] == 3 and seen["newsd_posts_accepted_total"] == 2, seen
            refused = {name: seen[cause("posts", name)] for name in POST_CAUSES if seen[cause("posts", name)]}
            assert refused == {"repeat": 1, "nogroup": 1, "missing": 1}, refused
            assert (seen["newsd_changes_accepted_total"], seen["newsd_changes_durable_total"], seen["newsd_inodes_used"]) == (3, 3, 4), seen
            assert 1 <= seen["newsd_batches_total"] <= 2 and seen["newsd_commit_seconds_count"] == seen["newsd_batches_total"], seen
            assert seen["newsd_syncs_total"] > first["newsd_syncs_total"] and 0 < seen["newsd_commit_seconds_sum"] < 10, seen
            assert 0 < seen["newsd_kernel_wait_seconds_max"] < 10, seen
            assert seen["newsd_received_bytes_total"] > 2 * len(article(1)) and seen["newsd_sent_bytes_total"] > 3 * len(GREETING), seen
            status = server.order("status").split(" ")
            assert seen["newsd_blocks_used"] == int(status[status.index("blocks") + 1]), (seen, status)
        last, log = metrics.end()
    assert [last['newsd_sessions{state="%s"}' % state] for state in ("idle", "sending", "held")] == [0, 0, 0], last
    assert last["newsd_sessions_begun_total"] == last["newsd_sessions_ended_total"] == 3, last
    assert last["newsd_received_bytes_total"] == told(log, "end", "in"), (last, log)
    assert last["newsd_sent_bytes_total"] == told(log, "end", "out"), (last, log)
    assert not os.path.exists(metrics.path + ".part")


def articles_that_are_gone_are_counted(volume):
    """An article counts once the last of its groups has lost it, and a volume's next server counts it too."""
    for name in ("x.a", "x.b"):
        volume.make_group(name)
    metrics = Metrics(volume)
    with metrics.server as server, server.call() as caller:
        for number in (1, 2, 3):
            assert caller.post(article(number)) == "240 Article received"
        assert caller.post(article(4).replace(b"Newsgroups: x.a", b"Newsgroups: x.a,x.b")) == "240 Article received"
        assert metrics.read()["newsd_articles_gone"] == 0
        assert server.order("expire x.a 2") == "7"
        metrics.wait(lambda values: values["newsd_articles_gone"] == 2)
        assert server.order("expire x.a 4") == "8"
        last, _ = metrics.end()
    assert last["newsd_articles_gone"] == 3, last
    status = json.loads(volume.run("status", volume.path, "--json").stdout)
    assert status["gone"]["articles"] == 3, status
    assert volume.expire(1, "x.b") == 9
    again = Metrics(volume)
    with again.server:
        assert again.read()["newsd_articles_gone"] == 4
        again.end()


def a_long_volumes_gone_articles_are_counted_in_parts(volume):
    """Two parts of 4,096 changes and a rest, of which the second is gone in part."""
    large = volume.another("large", blocks=16_384, inodes=16_384)
    large.make_group()
    texts = [article(number)[:-len(b".\r\n")].replace(b"\r\n", b"\n") for number in range(1, 9_001)]
    filed = large.run("import", large.path, given=b"".join(b"#! rnews %d\n" % len(text) + text for text in texts))
    assert filed.returncode == 0, filed
    large.expire(6_000)
    metrics = Metrics(large)
    with metrics.server:
        assert metrics.read()["newsd_articles_gone"] == 6_000
        metrics.end()


def what_the_log_leaves_out_is_counted(volume):
    """With --quiet, and callers that get no session."""
    volume.make_group()
    metrics = Metrics(volume, words=["--quiet", "--most-from", "1"])
    with metrics.server as server, server.call() as caller:
        assert caller.post(article(1)) == "240 Article received" and caller.post(article(1)) == "441 Article not accepted"
        for _ in range(3):
            with Caller(server.port) as further:
                assert further.greeting == SERVICE_ENDS
        last, log = metrics.end()
    assert last[cause("callers", "address")] == 3 and last[cause("posts", "repeat")] == 1, last
    assert last["newsd_posts_accepted_total"] == 1 and last["newsd_sessions_begun_total"] == 1, last
    assert not [line for line in log if " session=" in line], log


def a_file_that_cannot_be_written_is_refused(volume):
    """Nothing is served then, and what stands there stays."""
    folder = os.path.dirname(volume.path)
    missing, itself = os.path.join(folder, "no", "newsd.prom"), os.path.join(folder, "folder")
    os.makedirs(os.path.join(itself, "kept"))
    for path, why in ((missing, "can't write the file of --metrics: "), (itself, "E14 Bad: --metrics FILE is no regular file")):
        done = volume.run("serve", volume.path, "--port", str(free_port()), "--metrics", path)
        said = done.stderr.decode()
        assert (done.returncode, done.stdout) == (1, b"") and said.startswith("newsd: " + why), done
        print("  " + said.rstrip("\n"), flush=True)
    assert os.listdir(itself) == ["kept"] and not os.path.exists(itself + ".part")


def a_later_failure_is_told_once(volume):
    """The server goes on, and the file is written again once it can be."""
    volume.make_group()
    metrics = Metrics(volume)
    part = metrics.path + ".part"
    with metrics.server as server:
        os.mkdir(part)
        assert server.log().split(" ", 1)[1].startswith("event=metrics error=")
        before = os.stat(metrics.path).st_mtime
        time.sleep(SECONDS_OF_A_WRITING)
        assert os.stat(metrics.path).st_mtime == before
        os.rmdir(part)
        with server.call() as caller:
            assert caller.post(article(1)) == "240 Article received"
        metrics.wait(lambda values: values["newsd_posts_accepted_total"] == 1)
        _, log = metrics.end()
    assert not [line for line in log if "event=metrics" in line], log


def a_fault_is_followed_by_a_last_writing(volume):
    volume.make_group()
    metrics = Metrics(volume)
    with metrics.server as server, server.call() as caller:
        assert caller.post(article(1)) == "240 Article received"
        # the file for a monitor has fewer octets than this
        server.have_writes_fail()
        caller.send(b"POST\r\n" + article(2))
        assert server.process.wait(20) == 1
    last = metrics.read()
    assert (last["newsd_changes_accepted_total"], last["newsd_changes_durable_total"]) == (3, 2), last
    assert last["newsd_sessions_ended_total"] == 1, last


def an_exporter_of_prometheus_reads_it(volume):
    """It tells each number as the file has it."""
    exporter = shutil.which("prometheus-node-exporter") or shutil.which("node_exporter")
    if exporter is None:
        raise Skipped("no exporter of Prometheus is installed")
    volume.make_group()
    metrics = Metrics(volume)
    with metrics.server as server, server.call() as caller:
        assert caller.post(article(1)) == "240 Article received"
        metrics.end()
    port = free_port()
    words = [exporter, "--collector.disable-defaults", "--collector.textfile", "--web.listen-address=127.0.0.1:%d" % port,
             "--collector.textfile.directory=" + os.path.dirname(metrics.path)]
    with subprocess.Popen(words, stdout=subprocess.DEVNULL, stderr=subprocess.DEVNULL, preexec_fn=end_with_parent) as running:
        try:
            wait_until(lambda: exported(port))
            lines = [line for line in exported(port).splitlines() if not line.startswith("#")]
        finally:
            running.kill()
    values = {name: float(value) for name, value in (line.rsplit(" ", 1) for line in lines) if name.startswith("newsd_")}
    ours = metrics.read()
    assert values.keys() == ours.keys() and all(abs(values[name] - ours[name]) < 1e-9 for name in ours), (values, ours)
    assert "node_textfile_scrape_error 0" in lines and [line for line in lines if "newsd.prom" in line], lines


def exported(port):
    """What the exporter tells, or nothing as long as it doesn't listen."""
    try:
        with urllib.request.urlopen("http://127.0.0.1:%d/metrics" % port, timeout=5) as page:
            return page.read().decode()
    except OSError:
        return ""


TESTS = [
    the_file_tells_what_callers_did,
    articles_that_are_gone_are_counted,
    a_long_volumes_gone_articles_are_counted_in_parts,
    what_the_log_leaves_out_is_counted,
    a_file_that_cannot_be_written_is_refused,
    a_later_failure_is_told_once,
    a_fault_is_followed_by_a_last_writing,
    an_exporter_of_prometheus_reads_it,
]

if __name__ == "__main__":
    sys.exit(main(TESTS))
