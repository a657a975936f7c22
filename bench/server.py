"""An installed PostgreSQL: clusters of its own in a folder, their logs, and what the server's log says of a recovery.

Where the script runs as root, the server runs as the user `postgres`, as it refuses to run as root.
"""
import os
import re
import shutil
import struct
import subprocess
import sys
import time

from measure import MAGICS, PAGE

# The releases whose records have the form of release 16 and whose databases take an oid.
RELEASES = ("16", "15")
SYSTEM = 7  # the system identifier that the standby has
MAGIC = MAGICS["16"]
# What every cluster here has: nothing runs on its own, and it is reached by its folder alone.
QUIET = {"listen_addresses": "", "autovacuum": "off", "logging_collector": "off", "log_min_messages": "log"}


def installed():
    """The release of the installed server, and its folder of programs; none where none is there."""
    for release in RELEASES:
        folder = "/usr/lib/postgresql/%s/bin" % release
        if os.access(os.path.join(folder, "postgres"), os.X_OK):
            return release, folder
    return None, None


def as_server(words):
    """The words that run a program as the server's user."""
    return (["runuser", "-u", "postgres", "--"] if os.geteuid() == 0 else []) + words


def give(path):
    """Gives a file or folder, with all in it, to the server's user."""
    if os.geteuid() == 0:
        subprocess.run(["chown", "-R", "postgres:", path], check=True)


class Server:
    """A cluster in the folder `data` of a folder that the server's user may write. In a `with` it is stopped at the
    end, whatever comes."""

    def __init__(self, folder, data="data"):
        self.release, self.programs = installed()
        self.folder, self.data = folder, os.path.join(folder, data)
        self.log = os.path.join(folder, data + ".log")

    def __enter__(self):
        return self

    def __exit__(self, *_):
        if os.path.exists(os.path.join(self.data, "postmaster.pid")):
            self.stop()

    def run(self, name, *words, **more):
        path = os.path.join(self.programs, name)
        done = subprocess.run(as_server([path, *words]), cwd=self.folder, text=True, stdout=subprocess.PIPE,
                              stderr=subprocess.STDOUT, **more)
        if done.returncode != 0:
            sys.exit("%s failed: %s" % (name, done.stdout[-2000:]))
        return done.stdout

    def make(self):
        words = ["-D", self.data, "-U", "postgres", "-A", "trust", "-N", "--locale=C", "-E", "UTF8"]
        return self.run("initdb", *words)

    def start(self, **settings):
        """Starts the server, which recovers first where it has to, and waits until it takes commands."""
        named = dict(QUIET, **settings)
        options = " ".join("-c %s='%s'" % pair for pair in named.items()) + " -k " + self.folder
        # pg_ctl's own output has to end before the server does, so it goes nowhere.
        words = as_server([os.path.join(self.programs, "pg_ctl"), "-D", self.data, "-l", self.log, "-o", options,
                           "-w", "-t", "600", "start"])
        done = subprocess.run(words, cwd=self.folder, stdout=subprocess.DEVNULL, stderr=subprocess.DEVNULL)
        if done.returncode != 0:
            sys.exit("the server did not start: " + self.told()[-2000:])

    def stop(self, how="immediate"):
        self.run("pg_ctl", "-D", self.data, "-m", how, "-w", "stop")

    def told(self):
        with open(self.log) as file:
            return file.read()

    def psql_words(self, database, *words):
        return [os.path.join(self.programs, "psql"), "-h", self.folder, "-U", "postgres", "-d", database, "-X", "-q",
                "-At", "-v", "ON_ERROR_STOP=1", *words]

    def sql(self, database, *commands):
        """What the commands write, each a transaction of its own."""
        words = [word for command in commands for word in ("-c", command)]
        done = subprocess.run(self.psql_words(database, *words), text=True, stdout=subprocess.PIPE)
        if done.returncode != 0:
            sys.exit("psql failed at " + "; ".join(commands))
        return done.stdout.strip()

    def copy(self, database, query, path):
        """The rows of a query into a file."""
        with open(path, "wb") as file:
            words = self.psql_words(database, "-c", "SET work_mem = '1GB'", "-c", "COPY (%s) TO STDOUT" % query)
            subprocess.run(words, stdout=file, check=True)

    def copy_time(self, database, table):
        """The seconds of processor time of the server's process, and the seconds passed, of one COPY .. TO STDOUT that
        psql throws away."""
        clock = "SELECT pg_read_file('/proc/self/schedstat')"
        words = self.psql_words(database, "-c", clock, "-c", "\\copy %s to '/dev/null'" % table, "-c", clock)
        begun = time.monotonic()
        out = subprocess.run(words, text=True, stdout=subprocess.PIPE, check=True).stdout
        passed = time.monotonic() - begun
        first, last = (int(line.split()[0]) for line in out.split("\n") if len(line.split()) == 3)
        return (last - first) / 1e9, passed

    def wait_recovered(self, database):
        """Waits until a server that recovers from an archive has ended the recovery."""
        while self.sql(database, "SELECT pg_is_in_recovery()") != "f":
            time.sleep(0.1)

    def redo_time(self):
        """The seconds of processor time, user and system, and the seconds passed, of the recovery that the server's log
        tells."""
        found = re.findall(r"redo done at \S+ system usage: CPU: user: (\S+) s, system: (\S+) s, elapsed: (\S+) s",
                           self.told())
        if not found:
            sys.exit("the server's log has no line `redo done`: " + self.told()[-2000:])
        user, system, passed = (float(number) for number in found[-1])
        return user + system, passed

    def system(self):
        """The system identifier of the cluster."""
        out = self.run("pg_controldata", "-D", self.data)
        return int(re.search(r"system identifier:\s+(\d+)", out).group(1))


def readdress(source, target, magic, system):
    """Copies a segment with another page magic, and another system identifier in its long page header: no record's CRC
    covers them."""
    with open(source, "rb") as file:
        text = bytearray(file.read())
    for place, byte in enumerate(struct.pack("<H", magic)):
        text[place::PAGE] = bytes([byte]) * (len(text) // PAGE)
    text[24:32] = struct.pack("<Q", system)
    with open(target, "wb") as file:
        file.write(text)


def readdress_all(source, target, magic, system, low=""):
    """The segments of a folder from the name `low` on, with another magic and system, in another folder."""
    os.makedirs(target, exist_ok=True)
    for name in sorted(os.listdir(source)):
        if re.fullmatch("[0-9A-F]{24}", name) and low <= name:
            readdress(os.path.join(source, name), os.path.join(target, name), magic, system)


def fresh(folder):
    """An empty folder of the server's user."""
    shutil.rmtree(folder, ignore_errors=True)
    os.makedirs(folder)
    give(folder)
    return folder
