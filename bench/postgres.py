#!/usr/bin/env python3
"""postgres.py PROGRAM [--archives N] [--octets N] [--days N] [--file FILE]: archives as tables of PostgreSQL
(docs/SCALE.md), on Debian's PostgreSQL 15, by root: two servers in a folder of its own, on sockets of their own. Each
archive is a table of file_fdw, whose program is `PROGRAM totals DIR .. --csv`; a view has all of them; one more table
has all of them by one program, `totals DIR.. --each --csv`, and one keeps their sums; a second server has half of the
archives, and the first one asks both. It compares the sums of each with those that `totals` of each archive gives,
takes the times, and tries what may go wrong: a damaged archive, one that a `feed` has open, a limit, sessions side by
side, parallel plans, a role that may only read. Each archive has the same messages: of so many octets in so many days,
or those of FILE. It prints a line for each, and ends with 'N lines, M differ'; its status is 0 where M is 0, else 1."""
import argparse
import concurrent.futures
import contextlib
import csv
import io
import os
import resource
import shutil
import subprocess
import sys
import tempfile
import time

sys.path.insert(0, os.path.join(os.path.dirname(os.path.abspath(__file__)), "..", "judge"))
from questions import until_locked  # noqa: E402

BIN = "/usr/lib/postgresql/15/bin/"
TABLE = "start bigint, domain bigint, protocol smallint, flows numeric, octets numeric, packets numeric, width int"
FLOWS = "start bigint, domain bigint, protocol smallint, octets numeric, packets numeric"
SPAN = ("0", "4294967296")


class Servers:
    """Two servers of PostgreSQL, and archives that they may read."""

    def __init__(self, program, place, archives):
        self.place, self.archives, self.lines, self.differ = place, archives, 0, 0
        self.program = os.path.join(place, "flowvault")
        shutil.copyfile(program, self.program)
        os.chmod(self.program, 0o755)
        os.chmod(place, 0o755)
        for port in (5541, 5542):
            data = os.path.join(place, "data%d" % port)
            os.mkdir(data, 0o700)
            shutil.chown(data, "postgres", "postgres")
            self.as_postgres(BIN + "initdb", "-D", data, "-A", "trust", "--no-sync", "-N")
            words = "-k %s -p %d -c listen_addresses= -c fsync=off -c max_parallel_workers_per_gather=0" % (data, port)
            self.as_postgres(BIN + "pg_ctl", "-D", data, "-w", "-l", data + "/log", "-o", words, "start")

    def as_postgres(self, *words, check=True, given=None):
        return subprocess.run(["runuser", "-u", "postgres", "--", *words], cwd="/", input=given, check=check,
                              stdout=subprocess.PIPE, stderr=subprocess.PIPE, text=True)

    def stop(self):
        for port in (5541, 5542):
            self.as_postgres(BIN + "pg_ctl", "-D", "%s/data%d" % (self.place, port), "-m", "immediate", "stop",
                             check=False)

    def sql(self, text, port=5541, role="postgres"):
        """What a server answers, as tuples of text; where it refuses, the line of its refusal."""
        ran = self.as_postgres("psql", "-h", "%s/data%d" % (self.place, port), "-p", str(port), "-U", role, "-X", "-q",
                               "-A", "-t", "-F", ",", "-v", "ON_ERROR_STOP=1", "postgres", check=False, given=text)
        if ran.returncode:
            return next((line for line in ran.stderr.split("\n") if "ERROR" in line), ran.stderr)
        return [tuple(line.split(",")) for line in ran.stdout.split("\n") if line]

    def postmasters(self):
        for port in (5541, 5542):
            with open("%s/data%d/postmaster.pid" % (self.place, port)) as file:
                yield file.readline().strip()

    def sessions(self):
        """How many processes of the servers are sessions of users; one that has ended, and isn't counted yet, has no
        words."""
        count = 0
        for pid in self.postmasters():
            with open("/proc/%s/task/%s/children" % (pid, pid)) as children:
                for child in children.read().split():
                    with contextlib.suppress(OSError), open("/proc/%s/cmdline" % child) as file:
                        words = file.read()
                        count += not words or "[local]" in words
        return count

    def processor(self):
        """How many processor seconds this script's children took, and the servers with all that they started, once
        each session has ended: then a server counts what it took."""
        until = time.monotonic() + 60
        while self.sessions() and time.monotonic() < until:
            time.sleep(0.1)
        ticks, it = 0, resource.getrusage(resource.RUSAGE_CHILDREN)
        for pid in self.postmasters():
            with open("/proc/%s/stat" % pid) as stat:
                ticks += sum(map(int, stat.read().rpartition(")")[2].split()[11:15]))
        return ticks / os.sysconf("SC_CLK_TCK") + it.ru_utime + it.ru_stime

    def path(self, number):
        return "%s/archives/a%02d" % (self.place, number)

    def paths(self):
        return [self.path(number) for number in range(1, self.archives + 1)]

    def table_of_each(self):
        """One table of all archives, by one program."""
        return ("create foreign table every (archive int, %s) server flowvault options (program 'exec %s totals %s "
                "%s %s --each --csv', format 'csv', header 'true');"
                % (TABLE, self.program, " ".join(self.paths()), *SPAN))

    def table(self, number, words="totals", name=None):
        columns = TABLE if words == "totals" else FLOWS
        return ("create foreign table %s (%s) server flowvault options (program 'exec %s %s %s %s %s --csv', "
                "format 'csv', header 'true');"
                % (name or "a%02d" % number, columns, self.program, words, self.path(number), *SPAN))

    def say(self, what, wanted, came):
        self.lines += 1
        same = wanted == came
        self.differ += int(not same)
        print("%s: %s" % (what, came if same else "wanted %r, came %r" % (wanted, came)), flush=True)


def fed(asked, place):
    """Archives with the same messages, of the generator of this folder where no File is given."""
    program, path = os.path.abspath(asked.program), os.path.abspath(asked.file or os.path.join(place, "in.ipfix"))
    if not asked.file:
        here = os.path.dirname(os.path.abspath(__file__))
        words = [str(asked.octets), *([str(asked.days * 86400)] if asked.days else [])]
        with open(path, "wb") as file:
            subprocess.run([sys.executable, here + "/generate.py", *words], stdout=file, check=True)
    os.mkdir(place + "/archives")
    for number in range(1, asked.archives + 1):
        folder = "%s/archives/a%02d" % (place, number)
        if number == 1:
            os.mkdir(folder)
            subprocess.run([program, "create", folder, "300", "--limit", "16777216"], check=True)
            subprocess.run([program, "feed", folder, path, "--keep", "4294967295"], check=True,
                           stdout=subprocess.DEVNULL)
            subprocess.run("chgrp -R postgres %s && chmod -R g+rX %s" % (folder, folder), shell=True, check=True)
        else:
            subprocess.run(["cp", "-a", place + "/archives/a01", folder], check=True)


def sums(servers):
    """The sum of octets by domain of all archives, by `totals` of each, and how many rows there are."""
    by, rows = {}, 0
    for path in servers.paths():
        out = subprocess.run([servers.program, "totals", path, *SPAN, "--csv"], check=True, stdout=subprocess.PIPE,
                             text=True).stdout
        for row in csv.DictReader(io.StringIO(out)):
            by[row["domain"]] = by.get(row["domain"], 0) + int(row["octets"])
            rows += 1
    return sorted((domain, str(octets)) for domain, octets in by.items()), rows


def by_awk(servers, words):
    """The same of what commands write, by awk; its sums are below 2^53."""
    ran = subprocess.run(["sh", "-c", words + " | awk '{ octets[$2] += $5 } END { for (d in octets) "
                          "printf \"%s,%.0f\\n\", d, octets[d] }'"], check=True, stdout=subprocess.PIPE, text=True)
    return sorted(tuple(line.split(",")) for line in ran.stdout.split())


def setup(servers):
    half = (servers.archives + 1) // 2
    common = "create extension file_fdw; create server flowvault foreign data wrapper file_fdw;"
    every = range(1, servers.archives + 1)
    view = "create view bill as " + " union all ".join(
        "select text 'a%02d' as exporter, * from a%02d" % (n, n) for n in every) + ";"
    for port in (5541, 5542):
        servers.sql(common + "".join(map(servers.table, every)) + view, port)
    servers.sql(servers.table_of_each())
    servers.sql("create view here as select * from bill where exporter <= 'a%02d'" % half)
    servers.sql("create view here as select * from bill where exporter > 'a%02d'" % half, 5542)
    machines = "".join(
        "create server m%d foreign data wrapper postgres_fdw options (host '%s/data%d', port '%d', dbname 'postgres', "
        "async_capable 'true'); create user mapping for postgres server m%d options (user 'postgres');"
        % (n, servers.place, port, port, n) for n, port in ((1, 5541), (2, 5542)))
    tables = "create table bills (machine text not null, exporter text, %s) partition by list (machine);" % TABLE
    parts = "".join("create foreign table bills_m%d partition of bills for values in ('m%d') server m%d options "
                    "(table_name 'here_m%d');" % (n, n, n, n) for n in (1, 2))
    for n, port in ((1, 5541), (2, 5542)):
        servers.sql("create view here_m%d as select text 'm%d' as machine, * from here" % (n, n), port)
    servers.sql("create extension postgres_fdw;" + machines + tables + parts)


def took(servers, what, wanted, answer):
    """Compares an answer, and says how long it took, and how many processor seconds."""
    spent, since = servers.processor(), time.monotonic()
    came = answer()
    lasted = time.monotonic() - since
    spent = servers.processor() - spent
    servers.say("%s: %.2f s, %.2f processor seconds" % (what, lasted, spent), wanted, sorted(came))


def keep_sums(servers):
    """Fills a table with the sums of all archives, each written to a file."""
    answers, path = [], os.path.join(servers.place, "sums.csv")
    for number, folder in enumerate(servers.paths(), 1):
        with open(path, "w") as file:
            subprocess.run([servers.program, "totals", folder, *SPAN, "--csv"], stdout=file, check=True)
        answers += servers.sql("create temp table day (like sums); alter table day drop exporter;\n"
                               "\\copy day from '%s' with (format csv, header)\n"
                               "insert into sums select 'a%02d', * from day;" % (path, number))
    return answers


def asked_of(servers, wanted):
    """The sums of each archive, of a table of each, and of all by one program."""
    program, paths, by = servers.program, servers.paths(), "select domain, sum(octets) from %s group by 1 order by 1"
    each = "for it in %s; do %s totals $it %s %s; done" % (" ".join(paths), program, *SPAN)
    took(servers, "totals of each, one after the other, and awk", wanted, lambda: by_awk(servers, each))
    of_all = "%s totals %s %s %s" % (program, " ".join(paths), *SPAN)
    took(servers, "totals of all by one program, and awk", wanted, lambda: by_awk(servers, of_all))
    took(servers, "the view of a table of each", wanted, lambda: servers.sql(by % "bill"))
    took(servers, "two machines (two servers here), half of the archives each", wanted,
         lambda: servers.sql("set enable_partitionwise_aggregate = on;" + by % "bills"))
    took(servers, "one table by one program, --each", wanted, lambda: servers.sql(by % "every"))
    servers.sql("create table names (archive int primary key, exporter text); insert into names values "
                + ", ".join("(%d, 'a%02d')" % (n, n) for n in range(1, servers.archives + 1)))
    octets = sum(int(row[1]) for row in wanted) // servers.archives
    took(servers, "that table by exporter", [("a%02d" % (n + 1), str(octets)) for n in range(servers.archives)],
         lambda: servers.sql("select exporter, sum(octets) from every join names using (archive) group by 1"))
    took(servers, "a materialized view, made", [], lambda: servers.sql(
        "create materialized view month as select * from bill"))
    took(servers, "and asked", wanted, lambda: servers.sql(by % "month"))
    servers.sql("create table sums (exporter text, %s)" % TABLE)
    took(servers, "a table of sums, filled", [], lambda: keep_sums(servers))
    took(servers, "and asked", wanted, lambda: servers.sql(by % "sums"))
    one = "select count(*) > 0, count(distinct exporter) from bill where exporter = 'a01'"
    took(servers, "one exporter of the view", [("t", "1")], lambda: servers.sql(one))


def tried(servers):
    wanted, rows = sums(servers)
    print("%d archives, %d rows" % (servers.archives, rows), flush=True)
    asked_of(servers, wanted)
    by = "select domain, sum(octets) from %s group by 1 order by 1"
    print("a parallel plan: %s" % servers.sql(
        "set max_parallel_workers_per_gather = 2; set parallel_setup_cost = 0; set parallel_tuple_cost = 0; "
        "set min_parallel_table_scan_size = 0;" + by % "bill"))
    with concurrent.futures.ThreadPoolExecutor(10) as threads:
        came = list(threads.map(lambda _: sorted(servers.sql(by % "bill")) == wanted, range(10)))
    servers.say("ten sessions at once are answered", [True] * 10, came)
    servers.sql("create role reader login; grant select on bill to reader")
    servers.say("a role that may only read", wanted, sorted(servers.sql(by % "bill", role="reader")))
    servers.sql(servers.table(1, "flows", "single"))
    came = servers.sql("select octets from single order by octets desc limit 1")
    servers.say("a limit after a sort", 1, len(came))
    print("a limit alone, which ends the program's output early: %s" % servers.sql("select octets from single limit 1"))
    with subprocess.Popen([servers.program, "feed", servers.path(1), "-"], stdin=subprocess.PIPE,
                          stdout=subprocess.DEVNULL) as feed:
        until_locked(servers.path(1))
        for table in ("bill", "every"):
            came = servers.sql(by % table)
            servers.say("an archive that a feed has open is an error of the query of " + table, True,
                        isinstance(came, str) and "flowvault" in came)
        feed.stdin.close()
    with open(servers.path(1) + "/3.ipfix", "r+b") as file:
        os.chmod(file.name, 0o640)
        file.seek(2)
        file.write(b"\xff\xff")
    for table in ("bill", "every"):
        came = servers.sql(by % table)
        servers.say("a damaged archive is an error of the query of " + table, True,
                    isinstance(came, str) and "flowvault" in came)
    print(came)


def main():
    parser = argparse.ArgumentParser(description=__doc__, formatter_class=argparse.RawDescriptionHelpFormatter)
    parser.add_argument("program")
    parser.add_argument("--archives", type=int, default=20)
    parser.add_argument("--octets", type=int, default=3_000_000)
    parser.add_argument("--days", type=int)
    parser.add_argument("--file")
    asked = parser.parse_args()
    with tempfile.TemporaryDirectory(dir="/var/tmp") as place:
        fed(asked, place)
        servers = Servers(asked.program, place, asked.archives)
        try:
            setup(servers)
            tried(servers)
        finally:
            servers.stop()
    print("%d lines, %d differ" % (servers.lines, servers.differ))
    return int(servers.differ > 0)


if __name__ == "__main__":
    sys.exit(main())
