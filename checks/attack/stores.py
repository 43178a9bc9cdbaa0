"""What a store of auctions holds: its rows as they stand in a file, and as docs/FORMATS.md has them
of given auctions."""
import os
import re
import shutil
import sqlite3
import tempfile

from attack import reference
from attack.runs import STORE

PAGE = 4096
PHASES = ["taking", "proved", "answered"]


def rows_of(auctions):
    """The rows by their tables, of a store of the number 2 that keeps these auctions."""
    found = {"about": [(2,)], "auction": [], "terms": [], "seal": []}
    for name, auction in auctions.items():
        key, phase = bytes.fromhex(name), PHASES.index(auction.phase())
        seed = None if auction.seed is None else bytes.fromhex(auction.seed)
        version = 1 if auction.reserve is None else 2
        found["auction"].append((key, auction.width, auction.lanes, phase, seed, auction.bits))
        found["terms"].append((key, version, auction.reserve or 0))
        for position, secret in enumerate(auction.secrets, 1):
            texts = [text(secret).decode() for text in (reference.seal_text, reference.secret_text)]
            found["seal"].append((key, position, secret.seat, *texts))
    return {table: sorted(rows, key=repr) for table, rows in found.items()}


def first_rows(rows):
    """The same of the number 1, which knows no terms."""
    return {table: [(1,)] if table == "about" else rows[table]
            for table in rows if table != "terms"}


def rows_in(folder, is_tested=True):
    """The rows of the store in a folder, or None where none is there. Where the making of a store
    was stopped before its first page was whole, whose first byte comes last, it has none. It may be
    read once, since reading copies its log."""
    path = os.path.join(folder, STORE)
    if not os.path.exists(path):
        return None
    with open(path, "rb") as file:
        first = file.read(PAGE)
    if len(first) < PAGE or first[0] == 0 and os.path.getsize(path) == PAGE:
        return {}
    store = sqlite3.connect(path)
    try:
        if is_tested and store.execute("PRAGMA integrity_check").fetchall() != [("ok",)]:
            raise sqlite3.DatabaseError("not sound")
        found = store.execute("SELECT name FROM sqlite_schema WHERE type = 'table'").fetchall()
        names = [name for (name,) in found]
        tables = {name: store.execute(f"SELECT * FROM {name}").fetchall() for name in names}
        return {name: sorted(rows, key=repr) for name, rows in tables.items()}
    finally:
        store.close()


def rows_beside(folder, is_tested=True):
    """The same, of a copy, so that the store stays as it is."""
    with tempfile.TemporaryDirectory(dir=os.path.dirname(folder)) as other:
        for name in os.listdir(folder):
            if name.startswith(STORE):
                shutil.copy(os.path.join(folder, name), other)
        return rows_in(other, is_tested)


def auction_of(rows, name):
    """The auction of this id, by the rows of a store of either number. Raises where they are
    none."""
    key = bytes.fromhex(name)
    ((_, width, lanes, phase, seed, bits),) = [row for row in rows["auction"] if row[0] == key]
    terms = [row for row in rows.get("terms", [(key, 1, 0)]) if row[0] == key]
    ((_, version, reserve),) = terms
    auction = reference.Auction(width, lanes, reserve if version == 2 else None)
    house = reference.House({}, {name: auction})
    for _, position, seat, seal, secret in sorted(row for row in rows["seal"] if row[0] == key):
        house.files.update({"seal": seal.encode(), "secret": secret.encode()})
        text = house.submit(name, "seal", "secret")
        assert text == f"taken seat {seat} position {position}\n", text
    auction.seed, auction.bits = seed and seed.hex(), bits
    is_one = phase == PHASES.index(auction.phase()) and 1 <= width <= 40 and 1 <= lanes <= 64
    is_told = bits is None or re.fullmatch("[01]{%d}" % lanes, bits)
    is_known = version in (1, 2) and 0 <= reserve < 2**width and (version == 2 or reserve == 0)
    is_sold = phase == 0 or len(auction.seals) > 0 and len(seed) == 32
    assert is_one and is_told and is_known and is_sold, "no auction"
    return auction


def first_store(files, others=()):
    """A store, by its files, as one of the number 1, whose auctions were announced without a
    reserve. Others are put into it that take seals."""
    with tempfile.TemporaryDirectory() as folder:
        for name, data in files.items():
            with open(os.path.join(folder, name), "wb") as file:
                file.write(data)
        store = sqlite3.connect(os.path.join(folder, STORE), isolation_level=None)
        for text in ("DROP TABLE terms", "UPDATE about SET version = 1"):
            store.execute(text)
        rows = rows_of(others)["auction"] if others else []
        store.executemany("INSERT INTO auction VALUES (?, ?, ?, ?, ?, ?)", rows)
        for text in ("VACUUM", "PRAGMA wal_checkpoint(TRUNCATE)"):
            store.execute(text).fetchall()
        store.close()
        with open(os.path.join(folder, STORE), "rb") as file:
            return file.read()
