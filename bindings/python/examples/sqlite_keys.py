"""Rows as keys in SQLite, and one plate by its prefix.

SQLite compares blobs as bytes, so a table WITHOUT ROWID whose key is the row stands in the order of the values: no index beside it, no
collation, and a plate is one range of the key.
"""

import sqlite3

import rowstation as station

schema = station.Schema("plate:u32,glyph:text,position:f64")
rows = station.encode(schema, {
    "plate": [8, 7, 7, 7, 9],
    "glyph": ["a", "ae", None, "a", "germandbls"],
    "position": [4.4, -2.0, 0.25, 1.5, 7.0],
})

database = sqlite3.connect(":memory:")
database.execute("create table points (row blob primary key, exposure integer) without rowid")
database.executemany("insert into points values (?, ?)", ((row, 250) for row in rows))

# What the engine gives in the order of its keys is the order of the values.
stored = [row for (row,) in database.execute("select row from points order by row")]
assert stored == list(rows.sort())

# Plate 7: from the bytes of its field up to the least bytes that are above everything that begins with them.
begins = station.key(schema, 7)
plate = database.execute("select row from points where row >= ? and row < ? order by row", (begins, station.after(begins)))
for glyph in station.decode(schema, [row for (row,) in plate])["glyph"]:
    print(glyph)
