"""Loads a log of packed records into ClickHouse: tools/try-consumer clickhouse [PROGRAM [RECORDS [SEED]]]

PROGRAM is a built capnp_ls; crates/capnp_ls/out/capnp_ls, 20000 and 2 if left out. The C++ tool makes the records, of five fields by
the seed, as a framed stream; the program packs it, which is the log, and unpacks that and writes its canonical forms. A server, with
all its files in a folder of its own, takes each of the three streams over its HTTP interface (FORMAT CapnProto): in batches, and at
once by a larger buffer. The count, the sums, which are reckoned here, too, and a hash of all fields have to be the same. The server
listens on two free ports of 127.0.0.1, and is stopped at the end.

It ends with status 1 where something differs, 2 where PROGRAM is no program, and 3 where the server or the C++ tool is not installed
(Debian's packages clickhouse-server and capnproto). docs/GUIDE.md ("Where one machine isn't enough") says how to load a log.
"""
import os
import random
import shutil
import socket
import subprocess
import sys
import tempfile
import time
import urllib.error
import urllib.parse
import urllib.request
from pathlib import Path

sys.path.insert(0, str(Path(__file__).resolve().parent.parent))
from prelude import ROOT, messages_of

SCHEMA = ROOT / "tools/consumer/record.capnp"
SERVER = """<yandex>
  <logger><level>warning</level><log>{folder}/log</log><errorlog>{folder}/errors</errorlog></logger>
  <listen_host>127.0.0.1</listen_host>
  <http_port>{http}</http_port>
  <tcp_port>{tcp}</tcp_port>
  <path>{folder}/data/</path>
  <tmp_path>{folder}/tmp/</tmp_path>
  <format_schema_path>{folder}/</format_schema_path>
  <users_config>{folder}/users.xml</users_config>
  <default_profile>default</default_profile>
  <default_database>default</default_database>
  <mark_cache_size>5000000</mark_cache_size>
</yandex>
"""
USERS = """<yandex>
  <profiles><default/></profiles>
  <quotas><default/></quotas>
  <users>
    <default>
      <password></password><networks><ip>127.0.0.1</ip></networks><profile>default</profile><quota>default</quota>
    </default>
  </users>
</yandex>
"""
# The server reads a query and what follows it into a buffer of 262,145 bytes first, by its setting max_query_size.
# Where that ends within the first word of a message the server fails, so a batch and its query fit in it.
BATCH_BYTES = 256_000
TABLE = "CREATE TABLE records (id UInt64, second UInt32, host String, change Int32, load Float64) ENGINE = Memory"
SUMS = "SELECT count(), sum(id), sum(second), sum(length(host)), sum(change), sum(load) FROM records"
HASH = "SELECT sum(cityHash64(id, second, host, change, load)) FROM records"
# Asks by no proxy, whatever the environment names.
DIRECTLY = urllib.request.build_opener(urllib.request.ProxyHandler({}))


def fail(what, status=1):
    print(f"try-consumer: {what}", file=sys.stderr)
    sys.exit(status)


def records(count, seed):
    chance = random.Random(seed)
    for _ in range(count):
        yield {"id": chance.getrandbits(64), "second": chance.getrandbits(32),
               "host": "".join(chance.choice("abcdefghij") for _ in range(chance.randrange(40))),
               "change": chance.randrange(-(1 << 31), 1 << 31), "load": chance.randrange(1000) / 4}


def run(stream, *words):
    return subprocess.run(words, input=stream, stdout=subprocess.PIPE, check=True).stdout


def streams(program, rows):
    """The records as the C++ tool writes them, and as the program does of the log."""
    text = "".join('(id = %(id)d, second = %(second)d, host = "%(host)s", change = %(change)d, load = %(load)r)\n' % row for row in rows)
    stream = run(text.encode(), "capnp", "encode", SCHEMA, "Record")
    log = run(stream, program, "pack")
    if run(log, program, "unpack") != stream:
        fail("what is unpacked of the log is not what was packed")
    return {"stream": stream, "unpacked": run(log, program, "unpack"), "canonical": run(log, program, "canon", "--packed")}


def ask(port, query, data=b" ", **settings):
    """What the server returns for a query, which the data follow."""
    words = urllib.parse.urlencode({"query": query, **settings}, quote_via=urllib.parse.quote)
    try:
        with DIRECTLY.open(f"http://127.0.0.1:{port}/?{words}", data, timeout=60) as response:
            return response.read().decode().strip()
    except urllib.error.HTTPError as error:
        fail(f"the server: {error.read().decode()[:600]}")


def insert(port, data, **settings):
    """Loads messages. The query and the line end after it have a multiple of eight bytes, so words stand where they have to."""
    begun, rest = "INSERT INTO records", "FORMAT CapnProto"
    spaces = 1 + -(len(begun) + 1 + len(rest) + 1) % 8
    ask(port, begun + " " * spaces + rest, data, format_schema="record:Record", **settings)


def in_batches(port, stream):
    batch = b""
    for message in messages_of(stream):
        if batch and len(batch) + len(message) > BATCH_BYTES:
            insert(port, batch)
            batch = b""
        batch += message
    insert(port, batch)


def by_a_large_buffer(port, stream):
    insert(port, stream, max_query_size=str(len(stream) + 1000))


def sums_of(rows):
    """What the server has to return for SUMS."""
    sums = [len(rows), sum(row["id"] for row in rows) % (1 << 64), sum(row["second"] for row in rows),
            sum(len(row["host"]) for row in rows), sum(row["change"] for row in rows), sum(row["load"] for row in rows)]
    return "\t".join(f"{number:.15g}" if isinstance(number, float) else str(number) for number in sums)


def compare(port, loaded, rows):
    """How many loads differ."""
    wanted, first, wrong = sums_of(rows), None, 0
    for name, stream in loaded.items():
        for way in in_batches, by_a_large_buffer:
            ask(port, "DROP TABLE IF EXISTS records")
            ask(port, TABLE)
            way(port, stream)
            found = ask(port, SUMS), ask(port, HASH)
            first = first or found[1]
            if found != (wanted, first):
                wrong += 1
                print(f"try-consumer: {name}, {way.__name__}: {found}, wanted {(wanted, first)}")
    print(f"try-consumer: ClickHouse {ask(port, 'SELECT version()')} takes {len(rows)} records of {', '.join(loaded)}:"
          f" {wrong} of {2 * len(loaded)} loads differ, hash {first}")
    return wrong


def start(folder):
    """A server whose files are in this folder, and its port."""
    sockets = [socket.create_server(("127.0.0.1", 0)) for _ in range(2)]
    http, tcp = [bound.getsockname()[1] for bound in sockets]
    for bound in sockets:
        bound.close()
    shutil.copy(SCHEMA, folder)
    (folder / "config.xml").write_text(SERVER.format(folder=folder, http=http, tcp=tcp))
    (folder / "users.xml").write_text(USERS)
    # Should this script be killed, the server ends by itself.
    words = ["timeout", "600", "clickhouse-server", f"--config-file={folder}/config.xml"]
    server = subprocess.Popen(words, cwd=folder, stdout=subprocess.DEVNULL, stderr=subprocess.DEVNULL)
    for _ in range(150):
        try:
            ask(http, "SELECT 1")
            return server, http
        except urllib.error.URLError:
            time.sleep(0.2)
    server.terminate()
    fail("the server didn't start within 30 s")


def main(program=ROOT / "crates/capnp_ls/out/capnp_ls", count=20000, seed=2):
    os.environ["PATH"] += ":/usr/sbin"
    if not os.access(program, os.X_OK):
        fail("usage: tools/try-consumer clickhouse [PROGRAM [RECORDS [SEED]]]; PROGRAM is a built capnp_ls", 2)
    for name in "clickhouse-server", "capnp":
        if not shutil.which(name):
            fail(f"{name} is not installed, so nothing is loaded", 3)
    rows = list(records(int(count), int(seed)))
    loaded = streams(program, rows)
    with tempfile.TemporaryDirectory() as folder:
        server, port = start(Path(folder))
        try:
            wrong = compare(port, loaded, rows)
        finally:
            server.terminate()
            server.wait()
    sys.exit(wrong > 0)


main(*sys.argv[1:])
