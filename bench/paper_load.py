"""Servers under load: programs that serve a folder or a file, and clients that send requests to them."""
import contextlib
import os
import re
import shutil
import socket
import subprocess
import sys
import threading
import time

from measured import ROOT


def program_of(crate):
    """Returns the program of a crate, or the one that the environment names in its place."""
    return os.environ.get(crate.upper(), f"{ROOT}/crates/{crate}/out/{crate}")


SPEED, SERVER, FLASHD = map(program_of, ("bench_paper", "bench_paper_server", "flashd"))
PYTHON = "/usr/bin/python3"  # the Python of the distribution, which has its packages
PACKAGES = {"nginx": "nginx-light", "wrk": "wrk", "valgrind": "valgrind"}
CLIENTS = 40
FOREVER = 1_000_000_000  # clients
SEGMENT = 1_460  # the most bytes of a slow client's segments, as on Ethernet
SLOW_BYTES, SLOW_PAUSE = 1_024, 0.25  # the bytes that a slow client reads at once, and the seconds before the next read
CONFIG = """daemon off;
master_process off;
pid %(top)s/nginx.pid;
error_log stderr crit;
events { worker_connections 4096; }
http {
    access_log off;
    sendfile on;
    tcp_nopush on;
    open_file_cache max=2000;
    keepalive_requests 1000000000;
    client_body_temp_path %(top)s;
    proxy_temp_path %(top)s;
    fastcgi_temp_path %(top)s;
    uwsgi_temp_path %(top)s;
    scgi_temp_path %(top)s;
    server { listen 127.0.0.1:%(port)d backlog=4096; root %(site)s; }
}
"""
# A script for wrk: the requests of a trace, in their order, each on the next free connection.
TRACE = """local paths = {%s}
local at = 0
function request()
  at = at %% #paths + 1
  return wrk.format("GET", paths[at])
end
"""


def can_draw():
    """Returns whether the pictures can be drawn."""
    words = [PYTHON, "-c", "import matplotlib"]
    return os.path.isfile(PYTHON) and subprocess.run(words, capture_output=True, check=False).returncode == 0


def missing_packages():
    missing = [package for program, package in PACKAGES.items() if not shutil.which(program)]
    return missing if can_draw() else [*missing, "python3-matplotlib"]


def install():
    """Installs the other programs if they are missing, and prints which ones cannot be installed."""
    if missing := missing_packages():
        env = {**os.environ, "DEBIAN_FRONTEND": "noninteractive"}
        for words in (["update"], ["install", "-y", "--no-install-recommends", *missing]):
            with contextlib.suppress(OSError):
                subprocess.run(["apt-get", "-qq", *words], env=env, stdout=subprocess.DEVNULL, check=False)
    if missing := missing_packages():
        print(f"bench/paper: not installed: {', '.join(missing)}", flush=True)
    if "wrk" in missing:
        sys.exit("bench/paper: only --quick runs without wrk")


def free_port():
    with socket.create_server(("127.0.0.1", 0)) as taken:
        return taken.getsockname()[1]


class Server:
    """A running server."""

    def __init__(self, words, port=None):
        self.process = subprocess.Popen(words, stdout=subprocess.PIPE, stderr=subprocess.DEVNULL)
        self.port = port or self.announced_port()
        self.wait()

    def announced_port(self):
        line = self.process.stdout.readline().decode()
        found = re.search(r":(\d+)/", line)
        if not found:
            raise RuntimeError(f"a server did not start: {line!r}")
        return int(found[1])

    def wait(self):
        for _ in range(100):
            with contextlib.suppress(OSError), socket.create_connection(("127.0.0.1", self.port)):
                return
            time.sleep(0.05)
        raise RuntimeError("a server does not accept")

    def url(self, name):
        return f"http://127.0.0.1:{self.port}/{name}"

    def memory(self):
        """Returns the resident memory of the process in KiB."""
        with open(f"/proc/{self.process.pid}/status", encoding="ascii") as lines:
            return next(int(line.split()[1]) for line in lines if line.startswith("VmRSS"))

    def __enter__(self):
        return self

    def __exit__(self, *_):
        self.process.kill()
        self.process.wait()
        self.process.stdout.close()


def flashd(site):
    return Server([FLASHD, "--listen", "127.0.0.1:0", site])


def files_server(how, chunks, lengths):
    """Starts the measured server of files, by reference or by copying."""
    return Server([SERVER, "serve", how, str(FOREVER), str(chunks), *map(str, lengths)])


def nginx(top, site):
    port = free_port()
    with open(f"{top}/nginx-{port}.conf", "w", encoding="ascii") as config:
        config.write(CONFIG % {"top": top, "port": port, "site": site})
    return Server(["nginx", "-p", top, "-c", f"{top}/nginx-{port}.conf"], port)


def read_response(client):
    """Receives one response, and returns the length of its body."""
    answer = b""
    while b"\r\n\r\n" not in answer:
        more = client.recv(65_536)
        if not more:
            raise RuntimeError("a response ended early")
        answer += more
    head, _, body = answer.partition(b"\r\n\r\n")
    count = len(body)
    if length := re.search(rb"Content-Length: (\d+)", head):
        while count < int(length[1]):
            count += len(client.recv(1 << 20))
    else:
        end = body[-5:]
        while not end.endswith(b"0\r\n\r\n"):
            more = client.recv(1 << 20)
            count, end = count + len(more), (end + more)[-5:]
    return count


def ask(port, paths, is_new):
    """Sends requests one after another, all on one connection or each on a new one. Returns the lengths of the responses."""
    last = "Connection: close\r\n" if is_new else ""
    client, lengths = None, []
    for path in paths:
        client = client or socket.create_connection(("127.0.0.1", port), 20)
        client.sendall(f"GET /{path} HTTP/1.1\r\nHost: a\r\n{last}\r\n".encode())
        lengths.append(read_response(client))
        if is_new:
            client.close()
            client = None
    if client:
        client.close()
    return lengths


class Load:
    """The load on a server: wrk for a second, or a few requests of this script, which only test the form."""

    def __init__(self, is_quick, top):
        self.is_quick, self.top = is_quick, top

    def rate(self, server, path, is_new=False, clients=CLIENTS, seconds=1):
        """Returns the requests per second."""
        if self.is_quick:
            return self.quick_rate(server, [path] * 5, is_new)
        words = ["wrk", "-t1", f"-c{clients}", f"-d{seconds}s", "--timeout", "10"]
        return self.by_wrk([*words, *(["-H", "Connection: close"] if is_new else []), server.url(path)])

    def trace_rate(self, server, paths):
        """Returns the requests of a trace per second. A response other than 200 does not count, such as 503 if a full cache has no page
        for a file."""
        if self.is_quick:
            return self.quick_rate(server, paths[:5], False)
        script = f"{self.top}/trace.lua"
        with open(script, "w", encoding="ascii") as it:
            it.write(TRACE % ",".join(f'"/{path}"' for path in paths))
        return self.by_wrk(["wrk", "-t1", f"-c{CLIENTS}", "-d1s", "-s", script, server.url("")], may_refuse=True)

    @staticmethod
    def quick_rate(server, paths, is_new):
        begun = time.perf_counter()
        ask(server.port, paths, is_new)
        return len(paths) / (time.perf_counter() - begun)

    @staticmethod
    def by_wrk(words, may_refuse=False):
        output = subprocess.run(words, capture_output=True, text=True, check=True).stdout
        refused = re.search(r"Non-2xx or 3xx responses: (\d+)", output)
        if refused and not may_refuse:
            raise RuntimeError(output)
        if errors := re.search(r"Socket errors: .*", output):
            print(f"paper: wrk: {errors[0]}", flush=True)
        rate = float(re.search(r"Requests/sec: +([\d.]+)", output)[1])
        if not refused:
            return rate
        count = int(re.search(r"(\d+) requests in", output)[1])
        print(f"paper: {refused[1]} of {count} responses were refused", flush=True)
        return rate * (count - int(refused[1])) / count


class SlowClients:
    """Clients that request a file and read it slowly, in a thread. `cut` is the number of those whose connection has ended."""

    def __init__(self, port, path, count):
        self.cut = 0
        self.is_over = threading.Event()
        self.clients = [self.begin(port, path) for _ in range(count)]
        self.thread = threading.Thread(target=self.run, daemon=True)

    @staticmethod
    def begin(port, path):
        client = socket.socket()
        client.setsockopt(socket.SOL_SOCKET, socket.SO_RCVBUF, 4_096)
        client.setsockopt(socket.IPPROTO_TCP, socket.TCP_MAXSEG, SEGMENT)
        client.settimeout(20)
        client.connect(("127.0.0.1", port))
        client.sendall(f"GET /{path} HTTP/1.1\r\nHost: a\r\n\r\n".encode())
        client.setblocking(False)
        return client

    def run(self):
        live = self.clients
        while not self.is_over.wait(SLOW_PAUSE):
            live = [client for client in live if self.reads(client)]
            self.cut = len(self.clients) - len(live)

    @staticmethod
    def reads(client):
        """Reads some bytes, if there are any. Returns whether the connection is still open."""
        try:
            return bool(client.recv(SLOW_BYTES))
        except BlockingIOError:
            return True
        except OSError:
            return False

    def __enter__(self):
        self.thread.start()
        return self

    def __exit__(self, *_):
        self.is_over.set()
        self.thread.join()
        for client in self.clients:
            client.close()

