"""A log that an installed PostgreSQL wrote: how it is made, and the folder that it is kept in.

The folder of a log has

    archive/            the segments as the standby reads them: page magic of release 16, system 7
    base/schema.toml    the description of its tables
    server/             the base backup that the log goes on from, as the server takes it
    about.json          the server's release and system identifier, the sizes, and the records by kind
"""
import json
import os
import re
import shutil
import subprocess
import sys

from server import MAGIC, MAGICS, SYSTEM, Server, fresh, give, readdress_all

DATABASE = 16384
FIRST = "000000010000000000000002"
START = "0/2000028"
SECOND = 3 << 24  # where the next segment begins: the first has what the backup leaves alone
# Of the kinds of records that the standby reads, by pg_waldump's names, those whose form release 16 changed: both gained
# a byte that says whether the table is a catalog, and a freeze has plans in place of a list of tuples.
CHANGED = ("Heap2/PRUNE", "Heap2/FREEZE_PAGE")
# Nothing but the workload writes into the log, and it ends in zeros.
WRITING = {
    "fsync": "off", "synchronous_commit": "off", "wal_level": "replica", "max_wal_size": "100GB",
    "checkpoint_timeout": "1d", "wal_keep_size": "100GB", "wal_recycle": "off", "shared_buffers": "1GB",
}


class Workload:
    """Tables by name, with their columns' names and types, and what a table's WITH has; SQL that is run before the log
    begins, and the command that makes the log. In it LIMIT stands for the position that ends it, FOLDER for a folder
    that the server may write, and EVERY for an eighth of the log in bytes.

    The table `u` of one column is always there, and has no row that is seen."""

    def __init__(self, name, tables, options, setup, command):
        self.name, self.options, self.setup, self.command = name, options, setup, command
        self.tables = dict(tables, u=[("id", "int4")])

    def commands(self):
        made = ["CREATE TABLE %s (%s) %s" % (name, ", ".join("%s %s" % column for column in columns), self.options)
                for name, columns in self.tables.items()]
        return made + self.setup


def schema(server, database, tables):
    """The description of tables, as the standby reads it."""
    text = "database = %s\n" % server.sql(database, "SELECT oid FROM pg_database WHERE datname = current_database()")
    for name, columns in tables.items():
        oid, file = server.sql(database, "SELECT oid, relfilenode FROM pg_class WHERE oid = '%s'::regclass" % name).split("|")
        text += '\n[[table]]\nname = "%s"\noid = %s\nfile = %s\n' % (name, oid, file)
        for column, kind in columns:
            text += '\n[[table.column]]\nname = "%s"\ntype = "%s"\n' % (column, kind)
    return text


def prepare(server, setup):
    """A cluster with the database `bench`, whose catalogs have nothing left to prune, and its base backup in the folder
    `base` beside it. It stands at the start of segment 2."""
    server.make()
    server.start(**WRITING)
    server.sql("postgres", "CREATE DATABASE bench OID %d STRATEGY file_copy TEMPLATE template0" % DATABASE)
    # The schema takes an oid, so that `t` gets 16385 and `u` 16390.
    server.sql("bench", "CREATE SCHEMA first", *setup)
    # Statistics first: what ANALYZE replaces in pg_statistic would else be left to prune.
    server.sql("bench", "ANALYZE", "VACUUM (FREEZE)")
    server.run("pg_basebackup", "-h", server.folder, "-U", "postgres", "-D", os.path.join(server.folder, "base"), "-X", "none",
               "-c", "fast", "--no-manifest")
    with open(os.path.join(server.folder, "base", "backup_label")) as file:
        label = file.read()
    if START + " (file" not in label:
        sys.exit("the log does not begin at " + START + ": " + label)


def kinds(server, folder):
    """The records of the log by kind, as pg_waldump counts them."""
    out = server.run("pg_waldump", "--stats=record", "--path=" + folder, "--start=" + START, "--end=" + last_position(server, folder))
    found = re.findall(r"^(\S+)\s+(\d+) \(", out, re.M)
    return {kind: int(count) for kind, count in found if count != "0" and kind != "Total"}


def last_position(server, folder):
    """Where the log ends."""
    words = [os.path.join(server.programs, "pg_waldump"), "--quiet", "--path=" + folder, "--start=" + START]
    done = subprocess.run(words, text=True, stdout=subprocess.PIPE, stderr=subprocess.PIPE)
    return re.findall(r"at ([0-9A-F]+/[0-9A-F]+)", done.stderr)[-1]


def refuse_changed(release, found):
    """Ends where a log of release 15 has records whose form is another one in release 16."""
    changed = ["%d %s" % (found[kind], kind) for kind in CHANGED if kind in found]
    if release == "15" and changed:
        sys.exit("the log has records whose form release 16 changed: " + ", ".join(changed))


def make(log, workload, size, work):
    """Makes the log of a workload, of so many MiB, in the folder `log`."""
    with Server(fresh(work)) as server:
        prepare(server, workload.commands())
        limit = "0/%X" % (SECOND + (size << 20))
        command = workload.command.replace("LIMIT", limit).replace("FOLDER", work).replace("EVERY", str(size << 20 >> 3))
        server.sql("bench", command)
        # A commit that waits writes the whole log.
        server.sql("bench", "SET synchronous_commit = on; INSERT INTO u VALUES (1); DELETE FROM u")
        text = schema(server, "bench", workload.tables)
    keep(server, log, text)
    shutil.rmtree(work)


def keep(server, log, text):
    """Keeps the log, its base backup and the description in the folder `log`."""
    wal = os.path.join(server.data, "pg_wal")
    about = {"release": server.release, "system": server.system(), "start": START, "end": last_position(server, wal)}
    about["kinds"] = kinds(server, wal)
    refuse_changed(server.release, about["kinds"])
    shutil.rmtree(log, ignore_errors=True)
    os.makedirs(os.path.join(log, "base"))
    readdress_all(wal, os.path.join(log, "archive"), MAGIC, SYSTEM, FIRST)
    about["bytes"] = int(about["end"].split("/")[1], 16) - SECOND
    with open(os.path.join(log, "base", "schema.toml"), "w") as file:
        file.write(text)
    shutil.move(os.path.join(server.folder, "base"), os.path.join(log, "server"))
    with open(os.path.join(log, "about.json"), "w") as file:
        json.dump(about, file, indent=1)
    subprocess.run(["chmod", "-R", "a+rX", log], check=True)


def about(log):
    with open(os.path.join(log, "about.json")) as file:
        return json.load(file)


def for_server(log, target, release, system):
    """The log's segments as the server reads them, in the folder `target`."""
    readdress_all(os.path.join(log, "archive"), target, MAGICS[release], system)
    give(target)
