"""The same appends into other stores: SQLite, and LMDB and LevelDB where Python has them. Each commits group after group, and each
commit is on the disk before the next group begins. The rows are spelled beforehand, so only the store and its calls are timed."""

import os
import shutil
import sqlite3
import struct
import time

try:
    import lmdb
except ImportError:
    lmdb = None
try:
    import plyvel
except ImportError:
    plyvel = None

MAP_SIZE = 1 << 30


def rows_of(lines):
    """Of each `append` its stream, its time and its value."""
    words = (line.split() for line in lines)
    return [(name, int(t), int(v)) for _, name, t, v in words]


def pairs_of(rows):
    """The rows as keys, which sort by stream and time, and values."""
    return [(name.encode() + b"\0" + struct.pack(">Q", t), struct.pack(">q", v)) for name, t, v in rows]


def sqlite(folder, mode, groups):
    """The seconds that SQLite takes for the groups of rows, with so a journal mode."""
    path = os.path.join(folder, "bench.db")
    db = sqlite3.connect(path, isolation_level=None)
    db.execute(f"pragma journal_mode={mode}")
    db.execute("pragma synchronous=full")
    db.execute("create table readings (stream text, t integer, v integer, primary key (stream, t)) without rowid")
    start = time.perf_counter()
    for group in groups:
        if len(group) == 1:
            db.execute("insert into readings values (?, ?, ?)", group[0])
        else:
            db.execute("begin")
            db.executemany("insert into readings values (?, ?, ?)", group)
            db.execute("commit")
    seconds = time.perf_counter() - start
    db.close()
    for ending in ("", "-wal", "-shm", "-journal"):
        if os.path.exists(path + ending):
            os.remove(path + ending)
    return seconds


def in_pairs(groups, begin):
    """The seconds that it takes to put the groups of rows as pairs, each group within what `begin` gives."""
    groups = [pairs_of(group) for group in groups]
    start = time.perf_counter()
    for group in groups:
        with begin() as transaction:
            for key, value in group:
                transaction.put(key, value)
    return time.perf_counter() - start


def in_lmdb(folder, groups):
    """The seconds that LMDB takes for the groups of rows."""
    path = os.path.join(folder, "bench.lmdb")
    env = lmdb.open(path, map_size=MAP_SIZE)
    seconds = in_pairs(groups, lambda: env.begin(write=True))
    env.close()
    shutil.rmtree(path)
    return seconds


def in_leveldb(folder, groups):
    """The seconds that LevelDB takes for the groups of rows."""
    path = os.path.join(folder, "bench.leveldb")
    db = plyvel.DB(path, create_if_missing=True)
    seconds = in_pairs(groups, lambda: db.write_batch(sync=True))
    db.close()
    shutil.rmtree(path)
    return seconds


def missing():
    """The stores that Python doesn't have, each with the Debian package that brings it."""
    return [f"{name} ({package})" for name, package, found in (("LMDB", "python3-lmdb", lmdb), ("LevelDB", "python3-plyvel", plyvel)) if not found]


def by_groups(folder, groups):
    """Each store that is there with the seconds that it takes for the groups."""
    yield "SQLite, journal_mode=wal", sqlite(folder, "wal", groups)
    if lmdb:
        yield "LMDB", in_lmdb(folder, groups)
    if plyvel:
        yield "LevelDB, synced batches", in_leveldb(folder, groups)
