CREATE TABLE groups (
    id        INTEGER PRIMARY KEY,
    name      TEXT    NOT NULL UNIQUE,
    profile   INTEGER NOT NULL,
    rules     INTEGER NOT NULL,
    timed     INTEGER NOT NULL,           -- 1 if lifetimes are checked
    seq       INTEGER NOT NULL,           -- the last sequence of the log
    history   BLOB    NOT NULL,           -- a hash of all rows of the log
    epoch     INTEGER NOT NULL,           -- the 64 bits of a uint64
    members   INTEGER NOT NULL,
    ended     INTEGER NOT NULL,
    changed   INTEGER NOT NULL,           -- in milliseconds since 1970
    confirmed INTEGER NOT NULL DEFAULT 0  -- the last sequence that a member is known to have processed
);

-- Not a part of groups: each accepted message writes the row of its group anew.
CREATE TABLE starts (
    group_id INTEGER PRIMARY KEY REFERENCES groups,
    info     BLOB    NOT NULL,
    tree     BLOB    NOT NULL,
    receipts BLOB    NOT NULL,
    epoch    INTEGER NOT NULL,
    members  INTEGER NOT NULL,
    at       INTEGER NOT NULL,
    checker  TEXT    NOT NULL
);

CREATE TABLE log (
    group_id INTEGER NOT NULL,
    seq      INTEGER NOT NULL,
    kind     INTEGER NOT NULL,            -- 1 proposal, 2 commit, 3 undo
    digest   BLOB    NOT NULL,            -- SHA-256 of the message
    message  BLOB    NOT NULL,
    receipts BLOB    NOT NULL,            -- what was learnt since the row before
    answer   TEXT    NOT NULL,
    epoch    INTEGER NOT NULL,            -- after the row, as members and ended
    members  INTEGER NOT NULL,
    ended    INTEGER NOT NULL,
    at       INTEGER NOT NULL,
    checker  TEXT    NOT NULL,            -- the library that accepted the message
    undone   INTEGER,                     -- the sequence of the undo
    PRIMARY KEY (group_id, seq)
);

CREATE INDEX log_digest ON log (group_id, digest);
CREATE INDEX log_undone ON log (group_id) WHERE undone IS NOT NULL;

CREATE TABLE states (
    group_id INTEGER NOT NULL REFERENCES groups,
    seq      INTEGER NOT NULL,
    state    BLOB    NOT NULL,
    receipts BLOB    NOT NULL,
    PRIMARY KEY (group_id, seq)
);

CREATE TABLE refusals (
    id       INTEGER PRIMARY KEY,
    group_id INTEGER NOT NULL,
    at       INTEGER NOT NULL,
    rule     INTEGER NOT NULL,
    inner_rule INTEGER NOT NULL,
    leaf     INTEGER NOT NULL,
    epoch    INTEGER NOT NULL,
    digest   BLOB    NOT NULL,
    message  BLOB    NOT NULL             -- its first bytes
);

CREATE INDEX refusals_group ON refusals (group_id, id);
