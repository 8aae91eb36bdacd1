CREATE TABLE groups (
    id        BIGINT  PRIMARY KEY GENERATED ALWAYS AS IDENTITY,
    name      TEXT    COLLATE "C" NOT NULL UNIQUE,
    profile   BIGINT  NOT NULL,
    rules     BIGINT  NOT NULL,
    timed     BIGINT  NOT NULL,           -- 1 if lifetimes are checked
    seq       BIGINT  NOT NULL,           -- the last sequence of the log
    history   BYTEA   NOT NULL,           -- a hash of all rows of the log
    epoch     BIGINT  NOT NULL,           -- the 64 bits of a uint64
    members   BIGINT  NOT NULL,
    ended     BIGINT  NOT NULL,
    changed   BIGINT  NOT NULL,           -- in milliseconds since 1970
    confirmed BIGINT  NOT NULL DEFAULT 0  -- the last sequence that a member is known to have processed
);

-- Not a part of groups: each accepted message writes the row of its group anew.
CREATE TABLE starts (
    group_id BIGINT  PRIMARY KEY REFERENCES groups,
    info     BYTEA   NOT NULL,
    tree     BYTEA   NOT NULL,
    receipts BYTEA   NOT NULL,
    epoch    BIGINT  NOT NULL,
    members  BIGINT  NOT NULL,
    at       BIGINT  NOT NULL,
    checker  TEXT    NOT NULL
);

CREATE TABLE log (
    group_id BIGINT  NOT NULL,
    seq      BIGINT  NOT NULL,
    kind     BIGINT  NOT NULL,            -- 1 proposal, 2 commit, 3 undo
    digest   BYTEA   NOT NULL,            -- SHA-256 of the message
    message  BYTEA   NOT NULL,
    receipts BYTEA   NOT NULL,            -- what was learnt since the row before
    answer   TEXT    NOT NULL,
    epoch    BIGINT  NOT NULL,            -- after the row, as members and ended
    members  BIGINT  NOT NULL,
    ended    BIGINT  NOT NULL,
    at       BIGINT  NOT NULL,
    checker  TEXT    NOT NULL,            -- the library that accepted the message
    undone   BIGINT,                      -- the sequence of the undo
    PRIMARY KEY (group_id, seq)
);

CREATE INDEX log_digest ON log (group_id, digest);
CREATE INDEX log_undone ON log (group_id) WHERE undone IS NOT NULL;

CREATE TABLE states (
    group_id BIGINT  NOT NULL REFERENCES groups,
    seq      BIGINT  NOT NULL,
    state    BYTEA   NOT NULL,
    receipts BYTEA   NOT NULL,
    PRIMARY KEY (group_id, seq)
);

CREATE TABLE refusals (
    id       BIGINT  PRIMARY KEY GENERATED ALWAYS AS IDENTITY,
    group_id BIGINT  NOT NULL,
    at       BIGINT  NOT NULL,
    rule     BIGINT  NOT NULL,
    inner_rule BIGINT NOT NULL,
    leaf     BIGINT  NOT NULL,
    epoch    BIGINT  NOT NULL,
    digest   BYTEA   NOT NULL,
    message  BYTEA   NOT NULL             -- its first bytes
);

CREATE INDEX refusals_group ON refusals (group_id, id);
