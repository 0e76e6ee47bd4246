"""Runs `flashd` over temporary folders. FLASHD=PROGRAM in the environment selects another program."""
import os
import resource
import signal
import subprocess

import tree

PROGRAM = os.environ.get("FLASHD") or f"{tree.ROOT}/crates/flashd/out/flashd"
ANNOUNCED = b"listening on http://"
SECONDS = 60


def build():
    """Builds the program, unless the environment names another one."""
    if "FLASHD" not in os.environ:
        subprocess.run([f"{tree.ROOT}/scripts/flashd", "--version"], stdout=subprocess.DEVNULL, check=True)


def allow_many_descriptors():
    """Raises the limit of open descriptors to the system's maximum, for this process and the servers that it starts."""
    _, most = resource.getrlimit(resource.RLIMIT_NOFILE)
    resource.setrlimit(resource.RLIMIT_NOFILE, (most, most))


def write_site(root, files):
    """Writes files into a folder, with the folders that they need."""
    for name, data in files.items():
        path = f"{root}/{name}"
        os.makedirs(os.path.dirname(path), exist_ok=True)
        with open(path, "wb") as it:
            it.write(data)


class Daemon:
    """A server of a folder, on a free port of 127.0.0.1, run by a user of the system."""

    def __init__(self, root, *words, descriptors=None, program=PROGRAM, user=None):
        limit = None
        if descriptors:
            def limit():
                resource.setrlimit(resource.RLIMIT_NOFILE, (descriptors, descriptors))
        given = [program, "--listen", "127.0.0.1:0", *words, root]
        self.process = subprocess.Popen(given, stdout=subprocess.PIPE, stderr=subprocess.PIPE, preexec_fn=limit, user=user)
        self.announced = self.process.stdout.readline()
        self.port = int(self.announced.rstrip(b"/\n").rpartition(b":")[2]) if self.announced else None

    def __enter__(self):
        return self

    def __exit__(self, *_):
        if self.process.poll() is None:
            self.process.send_signal(signal.SIGKILL)
        self.process.communicate()

    def is_running(self):
        return self.process.poll() is None

    def ended(self):
        """Waits until the server ends, and returns its status, its output after the first line, and its errors."""
        output, errors = self.process.communicate(timeout=SECONDS)
        return self.process.returncode, output, errors

    def memory(self):
        """Returns the resident memory of the server in KiB."""
        status = tree.read(f"/proc/{self.process.pid}/status").splitlines()
        return next(int(line.split()[1]) for line in status if line.startswith("VmRSS"))

    def processor_seconds(self):
        """Returns the processor time of the server so far, in seconds."""
        fields = tree.read(f"/proc/{self.process.pid}/stat").rpartition(")")[2].split()
        return (int(fields[11]) + int(fields[12])) / os.sysconf("SC_CLK_TCK")
