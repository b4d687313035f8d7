"""Rows as keys in LMDB, and one plate by its prefix.

LMDB keeps keys in the order of their bytes. A key has at most 511 bytes there (unless LMDB was built for more), so a longer row needs
another place: here it is said, and left out.
"""

import tempfile

import lmdb

import rowstation as station

schema = station.Schema("plate:u32,glyph:text,position:f64")
rows = station.encode(schema, {
    "plate": [8, 7, 7, 7, 9],
    "glyph": ["a", "ae", None, "a", "g" * 480],
    "position": [4.4, -2.0, 0.25, 1.5, 7.0],
})

with tempfile.TemporaryDirectory() as folder, lmdb.open(folder, map_size=1 << 20) as database:
    longest = database.max_key_size()
    with database.begin(write=True) as change:
        for row in rows:
            if len(row) > longest:
                print(f"a row of {len(row)} bytes is over the {longest} of a key")
            else:
                change.put(row, b"250 ns")

    with database.begin() as view:
        stored = [bytes(row) for row, _ in view.cursor()]
        assert stored == [row for row in rows.sort() if len(row) <= longest]

        # Plate 7: from the first key that is not below its field, for as long as keys begin with it.
        begins = station.key(schema, 7)
        plate = []
        cursor = view.cursor()
        found = cursor.set_range(begins)
        while found and cursor.key().startswith(begins):
            plate.append(bytes(cursor.key()))
            found = cursor.next()

for glyph in station.decode(schema, plate)["glyph"]:
    print(glyph)
