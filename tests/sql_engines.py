"""The two engines that tests/sql asks: PostgreSQL on a socket of its own in a folder of its own, and SQLite in memory.
How PostgreSQL plans and evaluates is as it comes; who asks much of many rows turns `jit` off, as docs/SQL.md says.

Each answers `rows(text, parameters)`, a list of tuples of numbers, texts and None, and `joined(expression, source,
parameters)`, the values of an expression on the rows of a table that are numbers, in the order of the rows and between
commas. They raise Refused where the engine refuses.
"""
import ctypes
import ctypes.util
import os
import shutil
import signal
import sqlite3
import subprocess
import tempfile
import time


class Refused(Exception):
    """What an engine says of a statement that it does not take, or that went wrong."""


# the programs of PostgreSQL 15, as tests/setup installs them
PROGRAMS = os.environ.get("POSTGRES_BIN", "/usr/lib/postgresql/15/bin")


class Libpq:
    """The calls of libpq that are needed."""

    def __init__(self, words):
        self.calls = ctypes.CDLL(ctypes.util.find_library("pq") or "libpq.so.5")
        for name in ("PQconnectdb", "PQexec", "PQexecParams"):
            getattr(self.calls, name).restype = ctypes.c_void_p
        for name in ("PQerrorMessage", "PQresultErrorMessage", "PQgetvalue"):
            getattr(self.calls, name).restype = ctypes.c_char_p
        self.connection = ctypes.c_void_p(self.calls.PQconnectdb(words.encode()))
        if self.calls.PQstatus(self.connection) != 0:
            raise Refused(self.calls.PQerrorMessage(self.connection).decode())

    def taken(self, result):
        result = ctypes.c_void_p(result)
        try:
            if self.calls.PQresultStatus(result) not in (1, 2):
                raise Refused(self.calls.PQresultErrorMessage(result).decode().strip())
            columns = range(self.calls.PQnfields(result))
            return [
                tuple(
                    None if self.calls.PQgetisnull(result, row, at) else self.calls.PQgetvalue(result, row, at).decode()
                    for at in columns
                )
                for row in range(self.calls.PQntuples(result))
            ]
        finally:
            self.calls.PQclear(result)

    def rows(self, text, parameters=()):
        if not parameters:
            return self.taken(self.calls.PQexec(self.connection, text.encode()))
        texts = [None if it is None else str(it).encode() for it in parameters]
        given = (ctypes.c_char_p * len(texts))(*texts)
        return self.taken(
            self.calls.PQexecParams(self.connection, text.encode(), len(texts), None, given, None, None, 0)
        )

    def close(self):
        self.calls.PQfinish(self.connection)


class Connection:
    """A connection to the server in a folder."""

    def __init__(self, room):
        self.client = Libpq(f"host={room} user=filters dbname=postgres")

    def rows(self, text, parameters=()):
        return self.client.rows(text, parameters)

    def joined(self, expression, source, parameters=()):
        ((found,),) = self.rows(f"SELECT string_agg(({expression})::text, ',') FROM {source}", parameters)
        return found or ""

    def close(self):
        self.client.close()


class Postgres(Connection):
    """A server of its own, whose default collation is that of a language, and a first connection to it."""

    def __init__(self):
        self.room = tempfile.mkdtemp(prefix="sql")
        self.who = {"user": "postgres", "group": "postgres"} if os.getuid() == 0 else {}
        if self.who:
            shutil.chown(self.room, "postgres", "postgres")
        self.server = self.client = None
        try:
            self.begin()
        except BaseException:
            self.close()
            raise

    def begin(self):
        words = ["-A", "trust", "-U", "filters", "-E", "UTF8", "--locale=C.UTF-8", "--no-sync"]
        words += ["--locale-provider=icu", "--icu-locale=en-US"]
        self.call("initdb", "-D", f"{self.room}/data", *words)
        options = {"fsync": "off", "full_page_writes": "off", "max_connections": "20"}
        options |= {
            "listen_addresses": "", "unix_socket_directories": self.room, "log_min_messages": "panic",
            "client_min_messages": "error",
        }
        asked = [word for name, value in options.items() for word in ("-c", f"{name}={value}")]
        with open(f"{self.room}/said", "wb") as said:
            words = [f"{PROGRAMS}/postgres", "-D", f"{self.room}/data", *asked]
            self.server = subprocess.Popen(words, stdout=said, stderr=said, cwd=self.room, **self.who)
        self.client = self.connected()

    def call(self, name, *words):
        done = subprocess.run([f"{PROGRAMS}/{name}", *words], capture_output=True, cwd=self.room, **self.who)
        if done.returncode:
            raise Refused(done.stderr.decode())

    def connected(self):
        last = time.monotonic() + 60
        while True:
            try:
                return Connection(self.room).client
            except Refused:
                if time.monotonic() > last or self.server.poll() is not None:
                    raise
                time.sleep(0.1)

    def half(self, number):
        """A connection for a process of its own, to tables of its own."""
        half = Connection(self.room)
        half.rows(f"CREATE SCHEMA IF NOT EXISTS half{number}")
        half.rows(f"SET search_path = half{number}")
        return half

    def close(self):
        if self.client:
            super().close()
        if self.server:
            # at once, whoever is connected
            self.server.send_signal(signal.SIGINT)
            self.server.wait()
        shutil.rmtree(self.room, ignore_errors=True)


class Sqlite:
    def __init__(self, path=":memory:"):
        self.connection = sqlite3.connect(path, isolation_level=None)

    def half(self, _number):
        """Another, for a process of its own."""
        return Sqlite()

    def rows(self, text, parameters=()):
        try:
            return self.connection.execute(text, parameters).fetchall()
        except (sqlite3.Error, sqlite3.Warning) as fault:
            raise Refused(str(fault)) from fault

    def joined(self, expression, source, parameters=()):
        ((found,),) = self.rows(f"SELECT group_concat({expression}) FROM {source}", parameters)
        return "" if found is None else str(found)

    def close(self):
        self.connection.close()
