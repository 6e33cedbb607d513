#!/usr/bin/env python3
"""System tests of what stands beside the program: docs/OPERATING.md, bin/install and contrib/. operating.py NEWSD [NAME..]"""
import os
import pwd
import re
import shutil
import signal
import socket
import ssl
import subprocess
import sys
import threading
import time

from newsd import (GREETING, GROUP, HOST, LOGGED, SECONDS, SERVICE_ENDS, Caller, article, end_with_parent, free_port,
                   wait_until)
from playing import Skipped, main

TOP = os.path.dirname(os.path.dirname(os.path.abspath(__file__)))
PAGE = os.path.join(TOP, "docs", "OPERATING.md")
# a block of code of the page
COMMANDS = re.compile(r"```\n(.*?)```", re.DOTALL)
TEN = 10
# they make a volume of the usual size, which a program with checks does slowly
SECONDS_OF_THE_TEN = 120
PORT = "1119"
# where newsd listens for stunnel
PROXIED = "1563"
UNITS = "lib/systemd/system"
SETTINGS = "share/doc/newsd"
PROGRAM, RELAY, REPORT, FEED, MANUAL = "bin/newsd", "lib/newsd/xover", "lib/newsd/report", "lib/newsd/feed", "share/man/man1/newsd.1"
NIGHT, NIGHTLY, TIMER, RULES = "lib/newsd/night", UNITS + "/newsd-night.service", UNITS + "/newsd-night.timer", SETTINGS + "/newsd.rules"
SERVICE, SOCKET, RELAYING = (UNITS + "/" + name for name in ("newsd.service", "newsd.socket", "newsd-xover.service"))
CALLERS, METRICS, TUNNEL, BALANCER = (SETTINGS + "/" + name for name in ("callers.conf", "metrics.conf", "stunnel.conf", "haproxy.cfg"))
INSTALLED = (PROGRAM, RELAY, REPORT, FEED, NIGHT, MANUAL, SERVICE, SOCKET, RELAYING, NIGHTLY, TIMER, CALLERS, METRICS, TUNNEL, BALANCER, RULES)
PIPE = "/run/newsd.operator"
CONTROL = "/run/newsd/control"
SYSTEMD = "/lib/systemd/systemd"
# in tenths, as `systemd-analyze security` counts
MOST_EXPOSED = 15


def read(*path):
    with open(os.path.join(*path)) as file:
        return file.read()


def write(path, text):
    with open(path, "w") as file:
        file.write(text)


def answers_in(*path):
    """The answers of a server in a file that has its log, too."""
    return [line for line in read(*path).splitlines() if not line.startswith(LOGGED)]


def place_of(volume):
    return os.path.dirname(volume.path)


def install(volume, *words, **given):
    """Runs bin/install with the built program."""
    words = [os.path.join(TOP, "bin", "install"), *words]
    given = {**os.environ, "NEWSD": volume.program, **given}
    return subprocess.run(words, env=given, capture_output=True, text=True, stdin=subprocess.DEVNULL, timeout=SECONDS)


def places_named(root):
    """The prefixes that the installed units name."""
    return [re.search("^ExecStart=(.*)/%s " % program, read(root, unit), re.MULTILINE)[1]
            for unit, program in ((SERVICE, PROGRAM), (RELAYING, RELAY))]


def found_in(folder):
    """The paths of all files and folders there."""
    return sorted(os.path.relpath(os.path.join(at, name), folder) for at, folders, names in os.walk(folder) for name in folders + names)


def the_ten_commands_serve_a_group(volume):
    """They are played as they stand on the page, but on a port that is free, in a home of the test, and with the built program."""
    commands = COMMANDS.findall(read(PAGE))[0]
    assert len(commands.splitlines()) == TEN and PORT in commands, commands
    home, port = os.path.join(place_of(volume), "home"), str(free_port())
    os.mkdir(home)
    given = dict(os.environ, NEWSD=volume.program, HOME=home)
    words = ["bash", "-e", "-c", commands.replace(PORT, port)]
    with open(home + "/said", "w+") as said:
        playing = subprocess.Popen(words, cwd=TOP, env=given, stdin=subprocess.DEVNULL, stdout=said, stderr=said,
                                   start_new_session=True, preexec_fn=end_with_parent)
        try:
            assert playing.wait(SECONDS_OF_THE_TEN) == 0, read(home, "said")
            # the operator's group is answered once it is durable
            wait_until(lambda: answers_in(home, "news", "serve.log") == ["listening 127.0.0.1:" + port, "2"], SECONDS)
            with Caller(int(port)) as caller:
                assert caller.ask("GROUP x.more") == "211 0 1 0 x.more"
            # a program that rotates the log may cut it
            log = os.path.join(home, "news", "serve.log")
            os.truncate(log, 0)
            subprocess.run(["sh", "-c", "echo more >operator"], cwd=os.path.dirname(log), check=True, timeout=SECONDS)
            wait_until(lambda: answers_in(log) == ["E14 Bad"], SECONDS)
        finally:
            # the server is of the shell's group of processes
            os.killpg(playing.pid, signal.SIGKILL)
    lines = read(home, "said").splitlines()
    count = len(INSTALLED)
    assert lines[:count] == ["install: " + os.path.join(home, ".local", it) for it in INSTALLED], lines
    assert lines[count] == "1" and GREETING in lines and "x.test 0 1 y" in lines and lines[-1] == "205 Bye", lines


def a_volume_is_moved_to_a_larger_one(volume):
    """By the commands of the page. Articles that were named here are among those that are moved, and a group is called like an option."""
    place = place_of(volume)
    for name, status in ((GROUP, "y"), ("x.b", "n"), ("-x.c", "y")):
        volume.run("group", volume.path, "--", name, status, "1000000000", "test").check_returncode()
    with volume.serve() as server, server.call() as caller:
        for number in range(1, 4):
            assert caller.post(article(number)) == "240 Article received"
        assert caller.post(b"From: a@example.org\r\nNewsgroups: x.b,x.a\r\nSubject: named here\r\n\r\nhi\r\n.\r\n") == "441 Article not accepted"
        assert caller.post(b"From: a@example.org\r\nNewsgroups: x.a\r\nSubject: named here\r\n\r\nhi\r\n.\r\n") == "240 Article received"
        assert server.order("expire x.a 1") == "8"
    os.symlink(volume.program, place + "/newsd")
    os.symlink(volume.path, place + "/news.volume")
    commands = COMMANDS.findall(read(PAGE))[1]
    assert "newsd import" in commands, commands
    given = dict(os.environ, PATH="%s:%s" % (place, os.environ["PATH"]))
    words = ["bash", "-e", "-o", "pipefail", "-c", commands]
    done = subprocess.run(words, cwd=place, env=given, capture_output=True, text=True, stdin=subprocess.DEVNULL, timeout=SECONDS_OF_THE_TEN)
    assert (done.returncode, done.stdout, done.stderr) == (0, "1\n2\n3\nfiled 3\nhere 0\nno group 0\nrefused 0\n", ""), done
    larger = volume.run("dump", place + "/larger.volume").stdout.decode().splitlines()
    named = "<7@%s>" % HOST
    assert larger == ["spool 6", "1 group x.a y", "2 group x.b n", "3 group -x.c y", "4 article <2@a.example> x.a",
                      "5 article <3@a.example> x.a", "6 article %s x.a" % named], larger
    assert volume.run("export", place + "/larger.volume").stdout == volume.export()


def an_installation_is_whole(volume):
    prefix = os.path.join(place_of(volume), "prefix")
    for _ in range(2):
        done = install(volume, prefix)
        assert (done.returncode, done.stderr) == (0, ""), done
        assert done.stdout.splitlines() == ["install: " + os.path.join(prefix, it) for it in INSTALLED], done
        files = [it for it in found_in(prefix) if os.path.isfile(os.path.join(prefix, it))]
        assert files == sorted(INSTALLED), files
    version = subprocess.run([os.path.join(prefix, "bin", "newsd"), "--version"], capture_output=True, text=True, timeout=SECONDS)
    assert version.stdout.startswith("newsd "), version
    assert places_named(prefix) == [prefix] * 2, places_named(prefix)


def an_installation_is_staged(volume):
    """All of it goes below DESTDIR, and the units name the place that the program will have."""
    place = os.path.join(place_of(volume), "stage")
    for words, given, prefix in ((["/usr"], {}, "/usr"), ([], {"PREFIX": "/srv/newsd"}, "/srv/newsd"), ([], {}, "/usr/local")):
        done = install(volume, *words, DESTDIR=place, **given)
        assert (done.returncode, done.stderr) == (0, ""), done
        files = [it for it in found_in(place) if os.path.isfile(os.path.join(place, it))]
        assert files == sorted(os.path.join(prefix[1:], it) for it in INSTALLED), files
        assert places_named(place + prefix) == [prefix] * 2, places_named(place + prefix)
        shutil.rmtree(place)


def an_installation_is_taken_away(volume):
    """What it didn't install stays, and a volume beside the program, too."""
    prefix = os.path.join(place_of(volume), "prefix")
    install(volume, prefix).check_returncode()
    os.makedirs(prefix + "/var")
    shutil.copy(volume.path, prefix + "/var/news.volume")
    write(os.path.join(prefix, SETTINGS, "mine"), "a setting of mine\n")
    done = install(volume, "--uninstall", prefix)
    assert (done.returncode, done.stderr) == (0, ""), done
    assert done.stdout.splitlines() == ["install: took away " + os.path.join(prefix, it) for it in INSTALLED], done
    assert [it for it in found_in(prefix) if os.path.isfile(os.path.join(prefix, it))] == [SETTINGS + "/mine", "var/news.volume"]
    again = install(volume, "--uninstall", prefix)
    assert (again.returncode, again.stdout, again.stderr) == (0, "", ""), again
    os.makedirs(os.path.join(prefix, PROGRAM))
    before = found_in(prefix)
    refused = install(volume, "--uninstall", prefix)
    assert (refused.returncode, refused.stdout) == (1, "") and refused.stderr.endswith("/bin/newsd is a folder; nothing was changed\n"), refused
    assert found_in(prefix) == before


def a_refused_installation_changes_nothing(volume):
    place = place_of(volume)
    with open(place + "/file", "w"):
        pass
    os.makedirs(place + "/taken/bin/newsd")
    os.makedirs(place + "/blocked")
    with open(place + "/blocked/lib", "w"):
        pass
    before = found_in(place)
    for prefix, why in (
        (place + "/file", "/file is no folder"),
        (place + "/file/below", "/file is no folder"),
        (place + "/taken", "/taken/bin/newsd is a folder"),
        (place + "/blocked", "/blocked/lib is no folder"),
        (place + "/a prefix", "the prefix may have letters"),
        ("/proc/newsd", "/proc can't be written"),
    ):
        done = install(volume, prefix)
        assert (done.returncode, done.stdout) == (1, ""), (prefix, done)
        assert done.stderr.startswith("install: ") and why in done.stderr and done.stderr.endswith("; nothing was changed\n"), done
        assert found_in(place) == before, prefix


def an_installation_writes_through_no_link(volume):
    """What a name led to, at a place or beside it, stays as it is."""
    place = place_of(volume)
    prefix, mine = os.path.join(place, "prefix"), place + "/mine"
    write(mine, "mine\n")
    for name in INSTALLED:
        os.makedirs(os.path.dirname(os.path.join(prefix, name)), exist_ok=True)
        for link in (name, name + ".new"):
            os.symlink(mine, os.path.join(prefix, link))
    done = install(volume, prefix)
    assert (done.returncode, done.stderr, read(mine)) == (0, "", "mine\n"), done
    assert [it for it in found_in(prefix) if os.path.isfile(os.path.join(prefix, it))] == sorted(INSTALLED), found_in(prefix)
    assert not any(os.path.islink(os.path.join(prefix, it)) for it in INSTALLED)


def a_program_without_a_proof_is_not_installed(volume):
    place = place_of(volume)
    program = place + "/newsd.unproved"
    shutil.copy(volume.program, program)
    before = found_in(place)
    done = install(volume, place + "/prefix", NEWSD=program)
    assert (done.returncode, done.stdout) == (1, ""), done
    assert done.stderr == "install: nothing is proved of %s; nothing was changed\n" % program, done
    assert found_in(place) == before, done


def systemd_takes_the_units(volume):
    """As they are installed, and with the settings to copy. The services may do little else than what they have to."""
    program = shutil.which("systemd-analyze")
    if program is None:
        raise Skipped("systemd-analyze isn't installed")
    prefix = os.path.join(place_of(volume), "prefix")
    install(volume, prefix).check_returncode()
    more = os.path.join(prefix, UNITS, "newsd.service.d")
    for has_settings in (False, True):
        if has_settings:
            os.mkdir(more)
            for name in (CALLERS, METRICS):
                shutil.copy(os.path.join(prefix, name), more)
        words = [program, "verify", "--man=no", *(os.path.join(prefix, it) for it in (SERVICE, SOCKET, RELAYING))]
        done = subprocess.run(words, capture_output=True, text=True, timeout=SECONDS)
        assert (done.returncode, done.stdout, done.stderr) == (0, "", ""), done
    for name in (SERVICE, RELAYING):
        words = [program, "security", "--offline=true", "--threshold=%d" % MOST_EXPOSED, os.path.join(prefix, name)]
        done = subprocess.run(words, capture_output=True, text=True, timeout=SECONDS)
        assert done.returncode == 0 or "Unknown" in done.stderr or "unrecognized" in done.stderr, done


def the_units_of_a_night_are_of_use(volume):
    """systemd takes them, and the command of the night can be run: by its rules, and with a renewal only where that gives blocks back."""
    units = {name: read(TOP, "contrib", name) for name in ("newsd-night.service", "newsd-night.timer")}
    command, = re.findall("^ExecStart=runuser -u newsd -- (.*)$", units["newsd-night.service"], re.MULTILINE)
    volume.make_group()
    rules = os.path.join(place_of(volume), "newsd.rules")
    shutil.copy(os.path.join(TOP, "contrib", "newsd.rules"), rules)
    places = {"/usr/local/lib/newsd/night": os.path.join(TOP, "contrib", "night"), "/usr/local/bin/newsd": volume.program,
              "/var/lib/newsd/news.volume": volume.path, "/etc/newsd.rules": rules}
    words = [places.get(word, word) for word in command.split()]
    assert words[-1] == "10", words
    for percent, said in (("10", b"articles 0\nnot renewed: that would give back 0 of "), ("0", b"articles 0\ngroups 1\n")):
        done = subprocess.run([*words[:-1], percent], capture_output=True, timeout=SECONDS)
        assert (done.returncode, done.stderr, done.stdout[:len(said)]) == (0, b"", said), done
    write(rules, "x.*:soon\n")
    before = read_octets(volume.path)
    done = subprocess.run(words, capture_output=True, text=True, timeout=SECONDS)
    assert (done.returncode, done.stdout) == (1, "") and "in line 1" in done.stderr and read_octets(volume.path) == before, done
    program = shutil.which("systemd-analyze")
    if program is None:
        raise Skipped("systemd-analyze isn't installed")
    folder = os.path.join(place_of(volume), "units")
    os.mkdir(folder)
    for name in ("newsd.service", "newsd.socket"):
        write(os.path.join(folder, name), read(TOP, "contrib", name).replace("/usr/local/bin/newsd", volume.program))
    for name, text in units.items():
        write(os.path.join(folder, name), text)
    words = [program, "verify", "--man=no", *(os.path.join(folder, name) for name in units)]
    done = subprocess.run(words, capture_output=True, text=True, timeout=SECONDS)
    assert (done.returncode, done.stdout, done.stderr) == (0, "", ""), done


def read_octets(path):
    with open(path, "rb") as file:
        return file.read()


def setting(name, *path):
    """The value of a setting that a unit has once."""
    found = re.findall("^%s=(.*)$" % name, read(TOP, "contrib", *path), re.MULTILINE)
    assert len(found) == 1, (name, found)
    return found[0]


def the_units_commands_serve_until_they_are_told_to_end(volume):
    """They run as systemd would run them, with the pipe on standard input, and then without it."""
    volume.make_group()
    port = free_port()
    assert setting("StandardInput", "newsd.service") == "socket" and setting("ListenFIFO", "newsd.socket") == PIPE
    pipe = os.path.join(place_of(volume), "operator")
    os.mkfifo(pipe)
    metrics, elsewhere = os.path.join(place_of(volume), "newsd.prom"), free_port()
    control = os.path.join(place_of(volume), "control")
    values = {"/usr/local/bin/newsd": volume.program, "/var/lib/newsd/news.volume": volume.path, PORT: str(port), CONTROL: control,
              "/var/lib/newsd-metrics/newsd.prom": metrics, "0.0.0.0:119": "127.0.0.1:%d" % elsewhere}
    bare, full = (started_by(*files) for files in ([], ["callers.conf", "metrics.conf"]))
    assert set(values) <= set(full) and full[:len(bare)] == bare, full
    words = [values.get(it, it) for it in bare]
    with Started([values.get(it, it) for it in full], subprocess.DEVNULL, port) as serving:
        assert serving.stdout.readline() == "listening 127.0.0.1:%d\n" % elsewhere
        with Caller(elsewhere) as caller:
            assert caller.greeting == GREETING
        wait_until(lambda: os.path.exists(metrics))
        assert volume.run("ask", control, "expire", "x.none", "1").stdout == b"E12 NotFound\n"
    # the signal by which systemd ends a service, where nobody writes into the pipe
    with Started(words, subprocess.DEVNULL, port) as serving, Caller(port) as caller:
        # the end of standard input changes nothing
        time.sleep(1)
        assert caller.post(article(1)) == "240 Article received"
        serving.terminate()
        assert serving.wait(SECONDS) == -signal.SIGTERM
    # systemd opens a pipe both ways
    held = os.open(pipe, os.O_RDWR)
    try:
        with Started(words, held, port) as serving, Caller(port) as caller:
            assert caller.post(article(2)) == "240 Article received"
            # as systemd does, it takes note of the end at once
            threading.Thread(target=serving.wait, daemon=True).start()
            # what somebody left in the pipe without a line end
            os.write(held, b"group x.b y")
            stopped = stop_by_the_unit(pipe, serving.pid)
            assert (stopped.returncode, stopped.stdout, stopped.stderr) == (0, b"", b""), stopped
            assert [serving.stdout.readline() for _ in range(2)] == ["E14 Bad\n", "stopped\n"] and serving.wait(SECONDS) == 0
        # it has ended by itself
        stopped = stop_by_the_unit(pipe, None)
        assert (stopped.returncode, stopped.stdout, stopped.stderr) == (0, b"", b""), stopped
    finally:
        os.close(held)
    assert volume.dump() == ["spool 3", "1 group x.a y", "2 article <1@a.example> x.a", "3 article <2@a.example> x.a"]


def started_by(*files):
    """The words of the unit's command, with those that these files add to it. For systemd a variable that is a word becomes its own words."""
    settings = [setting("Environment", name).strip('"').split("=", 1) for name in files]
    given = {it.rstrip("="): "" for it in re.search("^Environment=(NEWSD.*)$", read(TOP, "contrib", "newsd.service"), re.MULTILINE)[1].split()}
    assert {name for name, _ in settings} <= set(given), (settings, given)
    given.update(settings)
    words = setting("ExecStart", "newsd.service").split()
    return [part for word in words for part in (given[word[1:]].split() if word.startswith("$") else [word])]


def stop_by_the_unit(pipe, process):
    """Runs the command that the unit has for a stop of this process, or of one that has ended."""
    line = setting("ExecStop", "newsd.service")
    assert line.startswith("/bin/sh -c '") and line.endswith("'") and line.count(PIPE) == 1, line
    # for systemd $$ is one $, and two \ are one
    script = line[len("/bin/sh -c '"):-1].replace("$$", "$").replace("\\\\", "\\").replace(PIPE, pipe)
    given = {"PATH": os.environ["PATH"], **({} if process is None else {"MAINPID": str(process)})}
    return subprocess.run(["/bin/sh", "-c", script], env=given, capture_output=True, timeout=SECONDS)


class Started(subprocess.Popen):
    """A server by these words, which listens on this port. It is killed at the end."""

    def __init__(self, words, given, port):
        super().__init__(words, stdin=given, stdout=subprocess.PIPE, stderr=subprocess.DEVNULL, text=True, preexec_fn=end_with_parent)
        assert self.stdout.readline() == "listening 127.0.0.1:%d\n" % port

    def __exit__(self, *given):
        self.kill()
        super().__exit__(*given)


def systemd_runs_the_units(volume):
    """A systemd of the user's kind, in namespaces of its own, runs them but for the lines that only the system's own may have."""
    if os.getuid() or not os.path.exists(SYSTEMD) or not all(map(shutil.which, ("systemctl", "unshare"))):
        raise Skipped("systemd can't be started by this user here")
    if os.path.isdir("/run/systemd/system"):
        raise Skipped("this machine has a systemd that runs, which the test leaves alone")
    volume.make_group()
    place, port = place_of(volume), str(free_port())
    pipe = os.path.join(place, "operator")
    units = os.path.join(place, "config", "systemd", "user")
    os.makedirs(units)
    changed = {"/usr/local/bin/newsd": volume.program, "/var/lib/newsd/news.volume": volume.path, "/var/lib/newsd": place, PIPE: pipe, PORT: port,
               CONTROL: place + "/control", "RuntimeDirectory=newsd\n": "",
               "=journal": "=append:%s/said" % place, "RestartSec=10": "RestartSec=1"}
    for name in ("newsd.service", "newsd.socket"):
        text = read(TOP, "contrib", name)
        for before, after in changed.items():
            text = text.replace(before, after)
        kept = [it for it in text.splitlines() if it.partition("=")[0] not in SYSTEMS_OWN]
        write(os.path.join(units, name), "\n".join(kept) + "\n")
    words = ["unshare", "--mount", "--pid", "--fork", "--mount-proc", "--kill-child", "sh", "-c", PLAY, "sh", place, SYSTEMD, volume.program]
    groups = set(control_groups())
    try:
        done = subprocess.run(words, capture_output=True, text=True, stdin=subprocess.DEVNULL, timeout=3 * SECONDS,
                              preexec_fn=end_with_parent)
    finally:
        for group in sorted(set(control_groups()) - groups, key=len, reverse=True):
            wait_until(lambda: is_removed(group))
    if "no systemd" in done.stdout:
        raise Skipped("systemd doesn't start here")
    # systemctl may warn that the socket can start the service again, until it has stopped that, too
    assert (done.returncode, done.stdout.splitlines()) == (0, PLAYED), (done, read(place, "systemd.log"), read(place, "said"))
    said = answers_in(place, "said")
    # the server that was killed is started again, and after a stop in order none for the line that was left
    listening = "listening 127.0.0.1:" + port
    status = next(line for line in said if line.startswith("host "))
    # each stop by the unit begins with a line end, which is no line of an operator's
    first, last = [listening, "2", "E14 Bad", "stopped", listening, listening, "E11 Exists"], [listening, status, "E14 Bad", "stopped"]
    assert said in ([*first, *["stopped"] * answered, *last] for answered in (1, 2)), said
    assert volume.dump() == ["spool 2", "1 group x.a y", "2 group x.b y"]


def control_groups():
    """The groups of processes that a systemd makes. Others may come and go at any time."""
    folders = (folder for folder, _, _ in os.walk("/sys/fs/cgroup"))
    return (folder for folder in folders if {"init.scope", "app.slice"} & set(folder.split("/")))


def is_removed(group):
    """Whether a group of processes is gone, after a try to remove it: not while one of them ends."""
    try:
        os.rmdir(group)
    except OSError:
        pass
    return not os.path.isdir(group)


# what a systemd of the user's kind doesn't have, or not for each user
SYSTEMS_OWN = {"User", "Group", "SocketUser", "SocketGroup", "CapabilityBoundingSet", "PrivateDevices", "ProtectSystem", "ReadWritePaths",
               "ProtectHome", "PrivateTmp", "ProtectKernelTunables", "ProtectKernelModules", "ProtectControlGroups", "IPAddressDeny",
               "IPAddressAllow", "ProtectClock", "ProtectHostname", "ProtectKernelLogs", "ProtectProc", "PrivateMounts", "PrivateUsers",
               "RemoveIPC", "MemoryMax"}
PLAY = r"""
mount -t tmpfs tmpfs /run && mkdir -p /run/systemd/system /run/user/0 || { echo no systemd; exit; }
export XDG_RUNTIME_DIR=/run/user/0 XDG_CONFIG_HOME="$1/config" HOME="$1"
"$2" --user --log-target=console >"$1/systemd.log" 2>&1 &
tries=0
until systemctl --user list-units >/dev/null 2>&1; do
    tries=$((tries + 1))
    [ $tries -lt 100 ] && kill -0 $! || { echo no systemd; exit; }
    sleep 0.1
done
wait_for() { tries=0; until [ "0$(grep -sc "$1" "$HOME/said")" -ge "$2" ]; do tries=$((tries + 1)); [ $tries -lt 200 ] || exit 1; sleep 0.1; done; }
state() {
    tries=0
    # it says that it listens a moment after it prints so
    until [ "$(systemctl --user show newsd.service --property=ActiveState --value)" != activating ] || [ $tries -ge 100 ]; do
        tries=$((tries + 1))
        sleep 0.1
    done
    systemctl --user show newsd.service --property=ActiveState,Result --value | tr '\n' ' '
    echo
}
systemctl --user start newsd.service
wait_for listening 1
state
"$3" ask "$HOME/control" expire x.none 1
echo 'group x.b y 1000000000 test' >"$HOME/operator"
wait_for '^2$' 1
systemctl --user stop newsd.service
state
tries=0
while [ -e "$HOME/operator" ] && [ $tries -lt 200 ]; do tries=$((tries + 1)); sleep 0.1; done
[ -e "$HOME/operator" ] || echo the pipe is gone
systemctl --user start newsd.service
wait_for listening 2
kill -9 "$(systemctl --user show newsd.service --property=MainPID --value)"
wait_for listening 3
state
echo 'group x.b y 1000000000 test' >"$HOME/operator"
wait_for '^E11 Exists$' 1
printf 'stop\nstop\n' >"$HOME/operator"
wait_for stopped 2
sleep 2
state
echo status >"$HOME/operator"
wait_for '^host ' 1
state
systemctl --user stop newsd.service
state
"""
PLAYED = ["success active ", "E12 NotFound", "success inactive ", "the pipe is gone", "success active ", "success inactive ", "success active ",
          "success inactive "]


def readers_elsewhere_come_by_tls(volume):
    place = place_of(volume)
    certificate, reader = (certify(place, name) for name in ("newsd", "reader"))
    volume.make_group()
    by_proxy = free_port()
    with volume.serve(words=["--proxied", "127.0.0.1:%d" % by_proxy, "--most-from", "1"]) as server:
        assert server.process.stdout.readline().decode() == "listening 127.0.0.1:%d\n" % by_proxy
        with server.call() as caller:
            assert caller.post(article(1)) == "240 Article received"
            with Tunnel(place, by_proxy, certificate) as tunnel:
                # a caller of another address, and one of the address that has its session already
                assert read_by_tls(tunnel.port, certificate, source="127.0.0.2") == [GREETING, "211 1 1 1 " + GROUP, "220 1 <1@a.example>"]
                assert read_by_tls(tunnel.port, certificate, asks=()) == [SERVICE_ENDS]
                if has_ipv6():
                    assert read_by_tls(tunnel.port, certificate, source="::1", asks=()) == [GREETING]
        with Tunnel(place, by_proxy, certificate, readers=reader) as tunnel:
            assert read_by_tls(tunnel.port, certificate, reader)[0] == GREETING
            for shown in (None, certificate):
                try:
                    said = read_by_tls(tunnel.port, certificate, shown)
                except OSError:
                    said = ["", "", ""]
                assert said == ["", "", ""], said


def certify(place, name):
    """A file with a key and its certificate, as docs/OPERATING.md makes one."""
    if shutil.which("openssl") is None:
        raise Skipped("openssl isn't installed")
    path = os.path.join(place, name + ".pem")
    words = ["openssl", "req", "-x509", "-newkey", "rsa:2048", "-nodes", "-days", "365", "-subj", "/CN=news.example",
             "-addext", "subjectAltName=DNS:news.example", "-keyout", path, "-out", path + ".crt"]
    subprocess.run(words, capture_output=True, timeout=SECONDS, check=True)
    with open(path, "a") as file:
        file.write(read(path + ".crt"))
    return path


def has_user(name):
    try:
        return bool(pwd.getpwnam(name))
    except KeyError:
        return False


def has_ipv6():
    with socket.socket(socket.AF_INET6) as probe:
        try:
            probe.bind(("::1", 0))
        except OSError:
            return False
    return True


class Tunnel:
    """stunnel by contrib/stunnel.conf, with the places of the test."""

    def __init__(self, place, port, certificate, readers=None):
        program = shutil.which("stunnel4") or shutil.which("stunnel")
        if program is None:
            raise Skipped("stunnel isn't installed")
        self.port = free_port()
        settings = read(TOP, "contrib", "stunnel.conf")
        changed = [("accept = :::563", "accept = " + (":::%d" if has_ipv6() else "%d") % self.port), ("127.0.0.1:" + PROXIED, "127.0.0.1:%d" % port),
                   ("/etc/stunnel/newsd.pem", certificate)]
        if os.getuid() or not has_user("stunnel4"):
            changed += [("\nsetuid = stunnel4\nsetgid = stunnel4\n", "\n")]
        if readers:
            changed += [(";verifyPeer", "verifyPeer"), (";CAfile", "CAfile"), ("/etc/stunnel/readers.pem", readers + ".crt")]
        for before, after in changed:
            assert settings.count(before) == 1, before
            settings = settings.replace(before, after)
        path = os.path.join(place, "stunnel.conf")
        with open(path, "w") as file:
            file.write(settings)
        self.process = subprocess.Popen([program, path], stdin=subprocess.DEVNULL, stdout=subprocess.DEVNULL, stderr=subprocess.DEVNULL,
                                        preexec_fn=end_with_parent)

    def __enter__(self):
        wait_until(self.is_heard)
        return self

    def __exit__(self, *_):
        self.process.kill()
        self.process.wait(SECONDS)

    def is_heard(self):
        assert self.process.poll() is None, "stunnel has ended"
        with socket.socket() as probe:
            return probe.connect_ex(("127.0.0.1", self.port)) == 0


def read_by_tls(port, trusted, shown=None, source="127.0.0.1", asks=("GROUP " + GROUP, "ARTICLE 1")):
    """The greeting and the first lines of the replies that a reader from this address gets, which shows this certificate."""
    context = ssl.create_default_context(cafile=trusted + ".crt")
    if shown:
        context.load_cert_chain(shown)
    with socket.create_connection(("::1" if ":" in source else "127.0.0.1", port), SECONDS, (source, 0)) as plain:
        with context.wrap_socket(plain, server_hostname="news.example") as caller, caller.makefile("rwb") as lines:
            said = [lines.readline().decode().rstrip("\r\n")]
            for asked in asks:
                lines.write(asked.encode() + b"\r\n")
                lines.flush()
                said.append(lines.readline().decode().rstrip("\r\n"))
            return said


TESTS = [
    the_ten_commands_serve_a_group,
    a_volume_is_moved_to_a_larger_one,
    an_installation_is_whole,
    an_installation_is_staged,
    an_installation_is_taken_away,
    a_refused_installation_changes_nothing,
    an_installation_writes_through_no_link,
    a_program_without_a_proof_is_not_installed,
    systemd_takes_the_units,
    the_units_of_a_night_are_of_use,
    the_units_commands_serve_until_they_are_told_to_end,
    systemd_runs_the_units,
    readers_elsewhere_come_by_tls,
]


if __name__ == "__main__":
    sys.exit(main(TESTS))
