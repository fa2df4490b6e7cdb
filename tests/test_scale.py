"""The set-ups of docs/SCALE.md: services behind dnsdist, a hidden primary, and hosts that announce one address. Each
is tested in network namespaces of its own."""
import base64
import contextlib
import ctypes
import itertools
import os
import re
import shutil
import signal
import subprocess
import time
import urllib.request

import pytest
from servers import DATA, TOP, Steady, Workers, filled, run, script, serial_at, until

pytestmark = [pytest.mark.slow, pytest.mark.root, pytest.mark.peers("ip", "dig")]
CONTRIB = TOP / "contrib"
ZONE = "$TTL 60\n@ SOA ns h {} 2 3 4 5\n@ NS ns\nns A 192.0.2.1\nwww A 192.0.2.2\n"
NEW_NETWORK = 0x40000000


class Network:
    """Network namespaces, and the processes in them, until the end of a test."""

    def __init__(self, folder, stack):
        self.folder, self.prefix, self.stack = folder, f"scale{os.getpid()}-", stack

    def host(self, name, *addresses):
        """Makes a namespace with these addresses."""
        assert run("ip", "netns", "add", self.prefix + name).returncode == 0
        self.stack.callback(run, "ip", "netns", "del", self.prefix + name)
        self.ip(name, "link set lo up",
                *(f"addr add {address} dev lo {'nodad' * (':' in address)}" for address in addresses))

    def ip(self, name, *commands):
        for command in commands:
            assert run("ip", "-n", self.prefix + name, *command.split()).returncode == 0, command

    @contextlib.contextmanager
    def within(self, name):
        """Runs the body, and what it starts, in a namespace."""
        libc = ctypes.CDLL(None)
        with open("/proc/thread-self/ns/net") as before, open(f"/run/netns/{self.prefix}{name}") as after:
            assert libc.setns(after.fileno(), NEW_NETWORK) == 0
            try:
                yield
            finally:
                assert libc.setns(before.fileno(), NEW_NETWORK) == 0

    def start(self, name, *words, **settings):
        with self.within(name), open(self.folder / "log", "a") as log:
            how = {"stdout": log, "stderr": log, "start_new_session": True, "env": {**os.environ, **settings}}
            process = self.stack.enter_context(subprocess.Popen(words, **how))
        self.stack.callback(os.killpg, process.pid, signal.SIGTERM)


@pytest.fixture
def network(programs, tmp_path):
    with contextlib.ExitStack() as stack:
        yield Network(tmp_path, stack)


# ---- services behind dnsdist

def dnsdist(network, more=""):
    """Starts dnsdist with the settings of contrib/dnsdist.conf, and with `more` before the line that includes edns.lua.
    Returns a function that runs a line in dnsdist's console."""
    text = (CONTRIB / "dnsdist.conf").read_text().replace("/usr/share/mitrehyssop/contrib", str(CONTRIB))
    if more:
        text = text.replace("dofile(", f"{more}dofile(").replace("local rules = 2", "local rules = 3")
    conf = network.folder / "conf"
    conf.write_text(text.replace("THE KEY", base64.b64encode(os.urandom(32)).decode()))
    network.start("one", "dnsdist", "--supervised", "--disable-syslog", "-C", conf)
    until(lambda: dig("+noedns", "www.example.com") == "NOERROR 192.0.2.2", 10)
    return lambda line: run("dnsdist", "-C", conf, "-e", line)


def dig(*words):
    """The response code that dig gets for a question, followed by 192.0.2.2 if that address is in the reply."""
    said = run("dig", "+norec", "+tries=1", "+time=2", "@192.0.2.1", *words).stdout
    code = said.partition("status: ")[2].partition(",")[0] or "no reply"
    return f"{code} 192.0.2.2" if "\t192.0.2.2\n" in said else code


def steady(rate=2_000, connections=0, least=6, **settings):
    return Steady(("192.0.2.1", 53), "example.com", rate, connections, least, **settings)


@pytest.fixture
def services(network, programs, tmp_path):
    """The workers of two zones in a network of their own."""
    network.host("one", "192.0.2.1/32", "2001:db8::1/128")
    with network.within("one"), contextlib.ExitStack() as stack:
        workers = []
        for port, name in enumerate(["example.com", "example.net"], 5301):
            (tmp_path / name).mkdir()
            (tmp_path / f"{name}.zone").write_text(ZONE.format(1))
            files = tmp_path / name, ("127.0.0.1", port), name, tmp_path / f"{name}.zone"
            workers.append(stack.enter_context(Workers(programs, *files, kinds="ut")))
        yield workers


@pytest.mark.peers("dnsdist")
def test_two_zones_at_one_address(network, services):
    """Questions with and without EDNS, a zone that is added while dnsdist runs, and clients beside silent peers."""
    console = dnsdist(network)
    for over, edns in itertools.product(("+notcp", "+tcp"), ("+noedns", "+edns=0")):
        assert dig(edns, over, "www.example.com") == "NOERROR 192.0.2.2"
    assert dig("+noedns", "www.example.net") == "REFUSED"
    console('zone("example.net", 5302)')
    assert until(lambda: dig("+noedns", "www.example.net") == "NOERROR 192.0.2.2")
    with steady(0, 50, 2, SILENT="30") as client:
        pass
    assert client.lost_tcp == 0 and client.longest[1] < 2_000


@pytest.mark.peers("dnsdist")
def test_reloads_and_a_killed_process_behind_dnsdist(network, services):
    dnsdist(network)
    with steady() as client:
        for serial in range(2, 12):
            services[0].file.write_text(ZONE.format(serial))
            services[0].reload()
    assert client.lost <= 20, f"of {client.asked}"
    with steady() as client:
        os.kill(services[0].processes("udp")[0], signal.SIGKILL)
    assert client.lost <= 2, f"of {client.asked}"


@pytest.mark.peers("dnsdist", "openssl", "kdig")
def test_further_settings_of_dnsdist(network, services, tmp_path):
    """Another address, DNS over TLS, a rate limit, and metrics, by the settings of docs/SCALE.md."""
    words = "openssl req -x509 -newkey rsa:2048 -nodes -days 2 -subj /CN=ns.example.com".split()
    assert run(*words, "-keyout", tmp_path / "key.pem", "-out", tmp_path / "cert.pem").returncode == 0
    page = (TOP / "docs" / "SCALE.md").read_text()
    more = page.partition("so `local rules = 3`:\n\n```\n")[2].partition("```")[0]
    dnsdist(network, more.replace("/etc/dnsdist", str(tmp_path)))
    assert dig("+edns=0", "www.example.com") == "NOERROR 192.0.2.2"
    assert run("dig", "+noedns", "+norec", "+short", "@2001:db8::1", "www.example.com").stdout == "192.0.2.2\n"
    assert run("kdig", "+tls", "+norec", "+short", "@192.0.2.1", "www.example.com").stdout == "192.0.2.2\n"
    with steady(least=3) as client:
        pass
    assert client.lost == 0
    dig("+notcp", "+ignore", "+noedns", "www.example.com")
    with urllib.request.urlopen("http://127.0.0.1:8083/metrics", timeout=5) as metrics:
        truncated = re.search(r"^dnsdist_rule_truncated (\d+)", metrics.read().decode(), re.M)
    assert int(truncated[1]) > 1_000


# ---- a hidden primary

@pytest.mark.peers("nsd", "nsd-control", "knotd")
def test_a_hidden_primary(network, tmp_path):
    """NSD has the settings of contrib/hidden-nsd.conf. Knot transfers the zone that zonedeploy wrote, and again after
    a deploy."""
    def deploy(serial, *command):
        (tmp_path / "new").write_text(ZONE.format(serial))
        done = run("zonedeploy", "example.com", tmp_path / "new", tmp_path / "example.com.zone", *command)
        assert done.returncode == 0, done

    def serves(serial):
        return serial_at(("203.0.113.53", 53), "example.com") == serial

    network.host("one", "192.0.2.10/32", "203.0.113.53/32")
    key, conf = base64.b64encode(os.urandom(32)).decode(), tmp_path / "nsd.conf"
    text = (CONTRIB / "hidden-nsd.conf").read_text() + (DATA / "hidden-nsd.more").read_text()
    conf.write_text(re.sub("/var/lib/mitrehyssop|/run/nsd|FOLDER", str(tmp_path), text.replace("THE KEY", key)))
    text = (DATA / "hidden-knot.conf").read_text().replace("THE KEY", key)
    (tmp_path / "knot.conf").write_text(filled(text, folder=tmp_path))
    (tmp_path / "knot").mkdir()
    with network.within("one"):
        deploy(1, "true")
        network.start("one", "nsd", "-d", "-c", conf)
        time.sleep(1)
        network.start("one", "knotd", "-c", tmp_path / "knot.conf")
        assert until(lambda: serves(1), 30), (tmp_path / "log").read_text()
        deploy(2, "nsd-control", "-c", conf, "reload", "example.com")
        assert until(lambda: serves(2), 30), (tmp_path / "log").read_text()


# ---- three hosts that announce one address

# For zonedeploy-to: an ssh and a dig that reach the hosts of this test, and a systemctl that reloads the workers of a
# host.
COMMANDS = {
    "ssh": ["folder=FOLDER/$1 said=${2//\\/var\\/lib\\/mitrehyssop\\/example.com/$folder}",
            'HOST=$1 exec ip netns exec PREFIX$1 bash -c "$said"'],
    "dig": ["for word; do case $word in @[123])",
            'exec ip netns exec PREFIX${word#@} PROGRAM "${@/$word/@192.0.2.53}" ;;',
            'esac; done; exec PROGRAM "$@"'],
    "systemctl": ['[ "$1" != reload ] || kill -HUP "$(cat FOLDER/$HOST.served)"', '[ "$1" != is-enabled ]']}


class Anycast:
    """A router with three hosts on one side and a client on the other. On each host run BIRD and contrib/probe."""

    def __init__(self, network, programs, folder):
        self.network, self.programs, self.folder, self.workers = network, programs, folder, {}
        for host in "rc123":
            network.host(host, *["192.0.2.53/32"] * host.isdigit())
        for line in filled((DATA / "anycast.network").read_text(), prefix=network.prefix).splitlines():
            network.ip(*line.split(" ", 1))
        with network.within("r"):
            run("sysctl", "-qw", "net.ipv4.ip_forward=1", "net.ipv4.fib_multipath_hash_policy=1")
        self.bird("r", (DATA / "router.conf").read_text())
        self.write(1)
        for host in "123":
            text = run("zonecheck", "--print", "example.com", folder / "zone").stdout
            (folder / f"{host}.zone").write_text(text)
            self.bird(host, (CONTRIB / "anycast.conf").read_text().replace("198.51.100.11", f"198.51.100.1{host}"))
            self.serve(host)
            settings = {"BIRDC": f"birdc -s {folder}/{host}.ctl", "OUT": f"{folder}/{host}.out"}
            network.start(host, CONTRIB / "probe", "example.com", "192.0.2.53", **settings)

    def bird(self, host, text):
        (self.folder / f"{host}.conf").write_text(text)
        self.network.start(host, "bird", "-f", "-c", self.folder / f"{host}.conf", "-s", self.folder / f"{host}.ctl")

    def write(self, serial):
        (self.folder / "zone").write_text(ZONE.format(serial))

    def serve(self, host):
        """Starts the workers of a host, as the service of its zone would."""
        room = self.folder / f"room{host}"
        room.mkdir(exist_ok=True)
        workers = Workers(self.programs, room, ("192.0.2.53", 53), "example.com", self.folder / f"{host}.zone")
        with self.network.within(host):
            self.workers[host] = workers.__enter__()
        (self.folder / f"{host}.served").write_text(str(workers.pid))

    def end(self, host):
        self.workers.pop(host).__exit__()

    def are_there(self, count):
        """Whether so many hosts announce the address, at once or soon."""
        return until(lambda: run("ip", "-n", self.network.prefix + "r", "route", "show",
                                 "192.0.2.53").stdout.count("via") == count, 30)

    def lost(self, work):
        """The number of lost questions of 5,000 in five seconds, while `work` is done."""
        with self.network.within("c"), Steady(("192.0.2.53", 53), "example.com", 1_000, 0, 5) as client:
            work()
        return client.lost

    def deploy(self):
        """Deploys to one host after another."""
        self.write(2)
        for name, lines in COMMANDS.items():
            values = {"folder": self.folder, "prefix": self.network.prefix, "program": shutil.which(name)}
            script(self.folder / "bin" / name, *(filled(line, **values) for line in lines))
        path = {**os.environ, "PATH": f"{self.folder / 'bin'}:{os.environ['PATH']}"}
        done = run("zonedeploy-to", "example.com", self.folder / "zone", "1", "2", "3", env=path)
        assert done.returncode == 0, done


@pytest.mark.peers("bird", "birdc")
def test_anycast(network, programs, tmp_path):
    """A deploy, a host that is taken out, a service that ends, and a host that is cut off. Each comes back."""
    hosts = Anycast(network, programs, tmp_path)
    try:
        assert hosts.are_there(3) and hosts.lost(hosts.deploy) <= 6
        assert hosts.lost((tmp_path / "3.out").touch) == 0 and hosts.are_there(2)
        assert hosts.lost((tmp_path / "3.out").unlink) == 0 and hosts.are_there(3)
        assert hosts.lost(lambda: hosts.end("2")) <= 700 and hosts.are_there(2)
        hosts.serve("2")
        assert hosts.are_there(3)
        assert hosts.lost(lambda: network.ip("r", "link set h2 down")) <= 700 and hosts.are_there(2)
        assert hosts.lost(lambda: network.ip("r", "link set h2 up")) == 0 and hosts.are_there(3)
    finally:
        for host in list(hosts.workers):
            hosts.end(host)
