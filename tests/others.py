"""What others keep in a file of ours: the statements that make it, and what they see of it."""

import sqlite3

# In up to three places of a file: tables with rows, an index and a view.
PARTS = (
    ["CREATE TABLE note (id INTEGER PRIMARY KEY, text TEXT NOT NULL)", "CREATE INDEX note_text ON note (text)",
     "INSERT INTO note VALUES (1, 'uplink'), (2, 'rule'), (7, 'spare')"],
    ["CREATE TABLE diary (day TEXT NOT NULL, line TEXT)", "INSERT INTO diary VALUES ('Mon', NULL), ('Tue', 'calm')",
     "CREATE VIEW quiet AS SELECT day FROM diary WHERE line IS NULL"],
    ["CREATE TABLE owner (name TEXT PRIMARY KEY)", "INSERT INTO owner VALUES ('ops')"],
)
QUERIES = ("SELECT name, sql FROM sqlite_schema WHERE tbl_name IN ('note', 'diary', 'owner', 'quiet') ORDER BY name",
           "SELECT * FROM note ORDER BY id", "SELECT * FROM note INDEXED BY note_text WHERE text = 'spare'",
           "SELECT * FROM diary ORDER BY day", "SELECT * FROM quiet", "SELECT * FROM owner", "PRAGMA integrity_check")


def seen_in(path):
    """What others see in a file."""
    database = sqlite3.connect(path)
    try:
        return [database.execute(query).fetchall() for query in QUERIES]
    finally:
        database.close()
