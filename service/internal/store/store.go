// Package store keeps groups in SQLite, for one process, or in PostgreSQL, for several instances over one database.
//
// The log of a group is append-only. A row takes its place under the condition that the group's sequence and history are the
// expected ones, in the transaction that adds it. So of two instances that accept a message for one place, one is told that it
// was late. An instance whose log is not the store's, as after the store has lost rows, is told so too.
package store

import (
	"context"
	"crypto/sha256"
	"database/sql"
	"embed"
	"errors"
	"fmt"
	"io/fs"
	"os"
	"strings"
	"sync"
	"syscall"
	"time"

	_ "github.com/jackc/pgx/v4/stdlib"
	_ "github.com/mattn/go-sqlite3"
)

var (
	// ErrConflict says that the group's log is not the expected one: mostly it has grown. Nothing was stored.
	ErrConflict = errors.New("the log of the group has grown")

	// ErrNoGroup says that no group has the name.
	ErrNoGroup = errors.New("there is no group of this name")

	// ErrExists says that a group has the name already. Nothing was stored.
	ErrExists = errors.New("there is a group of this name")

	// ErrNoCommit says that no accepted commit has the sequence or the epoch.
	ErrNoCommit = errors.New("there is no such accepted commit")

	// ErrConfirmed says that a member is known to have processed the commit.
	ErrConfirmed = errors.New("a member has processed this commit, or a later one")

	// ErrNewer says that a later program has made the tables.
	ErrNewer = errors.New("the tables are of a later version of this program")
)

// A Kind is that of a row of a log.
type Kind int64

const (
	Proposal Kind = 1
	Commit   Kind = 2
	Undo     Kind = 3
)

// A Group is what the store says of a group without its log.
type Group struct {
	ID        int64
	Name      string
	Profile   uint32
	Rules     uint16
	Timed     bool // lifetimes are checked
	Seq       int64
	History   []byte // names the log with all its rows: Row.After
	Epoch     uint64
	Members   uint32
	Ended     bool
	Changed   time.Time
	Confirmed int64 // the last sequence that a member is known to have processed
}

// A Start is what a group was started from.
type Start struct {
	Info, Tree, Receipts []byte
	Epoch                uint64
	Members              uint32
	Checker              string
}

// A Row is a line of a group's log. Epoch, Members and Ended are the group's after it.
type Row struct {
	Seq               int64
	Kind              Kind
	Digest            []byte // SHA-256 of Message
	Message, Receipts []byte
	Answer            string
	Epoch             uint64
	Members           uint32
	Ended             bool
	At                time.Time
	Checker           string
	Undone            int64 // the sequence of the undo, or 0
}

// After returns the history of a log that ends with this row, after one with this history. That of a log without rows is
// empty.
func (r Row) After(history []byte) []byte {
	hash := sha256.New()
	hash.Write(history)
	hash.Write([]byte{byte(r.Kind)})
	hash.Write(r.Digest)
	hash.Write([]byte(r.Answer))
	return hash.Sum(nil)
}

// A State is a stored state, the sequence of the log after which it was taken, and the receipts that it needs.
type State struct {
	Seq             int64
	State, Receipts []byte
}

// Loaded is what a group is resumed from: its last stored state, the rows after it, and the digests of the commits that were
// undone with the sequences of their undos.
type Loaded struct {
	Group  Group
	State  State
	Rows   []Row
	Undone map[string]int64
}

// A Refusal is a message that was refused. Message has its first bytes.
type Refusal struct {
	At                time.Time
	Rule, Inner, Leaf uint32
	Epoch             uint64
	Digest, Message   []byte
}

// A Store is safe for use by several goroutines.
type Store struct {
	db     *sql.DB // reads; in PostgreSQL also writes
	shared bool    // other instances may write
	writer *writer // SQLite's, otherwise nil
	lock   *os.File
	later  chan struct{} // limits the writes that nobody waits for
	closed sync.Once
}

//go:embed migrations
var migrations embed.FS

// Connections is how many connections to a database a store has at most.
const Connections = 20

// Open opens the store at postgres://.., or in the SQLite file of this name, and brings its tables up to date.
func Open(ctx context.Context, name string) (*Store, error) {
	s := &Store{later: make(chan struct{}, 4)}
	var err error
	if strings.HasPrefix(name, "postgres://") || strings.HasPrefix(name, "postgresql://") {
		err = s.openPostgres(ctx, name)
	} else {
		err = s.openSQLite(ctx, name)
	}
	if err != nil {
		s.Close()
		return nil, err
	}
	return s, nil
}

// Shared says whether other instances may write to the store.
func (s *Store) Shared() bool { return s.shared }

func (s *Store) openPostgres(ctx context.Context, name string) (err error) {
	s.shared = true
	if s.db, err = sql.Open("pgx", name); err != nil {
		return err
	}
	s.db.SetMaxOpenConns(Connections)
	s.db.SetMaxIdleConns(Connections)
	s.db.SetConnMaxIdleTime(5 * time.Minute)
	for _, setting := range []string{"fsync", "synchronous_commit"} {
		var value string
		if err := s.db.QueryRowContext(ctx, "SHOW "+setting).Scan(&value); err != nil {
			return err
		}
		if value == "off" {
			return fmt.Errorf("%s is off: what is answered could be lost", setting)
		}
	}
	return s.migrate(ctx, s.db, "postgres")
}

func (s *Store) openSQLite(ctx context.Context, name string) (err error) {
	if s.lock, err = lockFile(name + ".lock"); err != nil {
		return err
	}
	// A name may have any characters: a URI takes ? and # for its own.
	uri := "file:" + strings.NewReplacer("%", "%25", "?", "%3f", "#", "%23").Replace(name)
	const options = "?_journal_mode=WAL&_synchronous=FULL&_busy_timeout=5000&_foreign_keys=1"
	db, err := sql.Open("sqlite3", uri+options+"&_txlock=immediate")
	if err != nil {
		return err
	}
	db.SetMaxOpenConns(1)
	if err := s.migrate(ctx, db, "sqlite"); err != nil {
		db.Close()
		return err
	}
	if s.writer, err = newWriter(ctx, s, db); err != nil {
		db.Close()
		return err
	}
	if s.db, err = sql.Open("sqlite3", uri+options+"&_query_only=1"); err != nil {
		return err
	}
	s.db.SetMaxOpenConns(Connections)
	s.db.SetMaxIdleConns(Connections)
	return nil
}

// lockFile keeps a second process from the same SQLite file. The lock ends with the process.
func lockFile(name string) (*os.File, error) {
	file, err := os.OpenFile(name, os.O_CREATE|os.O_RDWR, 0o600)
	if err != nil {
		return nil, err
	}
	if err := syscall.Flock(int(file.Fd()), syscall.LOCK_EX|syscall.LOCK_NB); err != nil {
		file.Close()
		return nil, fmt.Errorf("another process has %s: %w", name, err)
	}
	return file, nil
}

// migrate makes the tables, or brings those of an earlier version up to date, in one transaction.
func (s *Store) migrate(ctx context.Context, db *sql.DB, dialect string) error {
	tx, err := db.BeginTx(ctx, nil)
	if err != nil {
		return err
	}
	defer tx.Rollback()
	if s.shared { // two instances that make tables at once would disturb each other
		if _, err := tx.ExecContext(ctx, "SELECT pg_advisory_xact_lock(9420)"); err != nil {
			return err
		}
	}
	if _, err := tx.ExecContext(ctx, "CREATE TABLE IF NOT EXISTS schema_version (version BIGINT NOT NULL)"); err != nil {
		return err
	}
	version := 0
	err = tx.QueryRowContext(ctx, "SELECT version FROM schema_version").Scan(&version)
	if err == sql.ErrNoRows {
		_, err = tx.ExecContext(ctx, "INSERT INTO schema_version (version) VALUES (0)")
	}
	if err != nil {
		return err
	}
	files, err := fs.Glob(migrations, "migrations/"+dialect+"/*.sql")
	if err != nil {
		return err
	}
	if version > len(files) {
		return ErrNewer
	}
	for next := version + 1; next <= len(files); next++ {
		text, err := fs.ReadFile(migrations, fmt.Sprintf("migrations/%s/%d.sql", dialect, next))
		if err != nil {
			return err
		}
		for _, statement := range strings.Split(string(text), ";\n") {
			if strings.TrimSpace(statement) == "" {
				continue
			}
			if _, err := tx.ExecContext(ctx, statement); err != nil {
				return fmt.Errorf("migration %d: %w", next, err)
			}
		}
	}
	if _, err := tx.ExecContext(ctx, fmt.Sprintf("UPDATE schema_version SET version = %d", len(files))); err != nil {
		return err
	}
	return tx.Commit()
}

// Close ends what the store does, after what is being written. It may be called again.
func (s *Store) Close() (err error) {
	s.closed.Do(func() {
		note := func(failed error) {
			if err == nil {
				err = failed
			}
		}
		if s.writer != nil {
			note(s.writer.close())
		}
		if s.db != nil {
			note(s.db.Close())
		}
		if s.lock != nil {
			note(s.lock.Close())
		}
	})
	return err
}

// Ping says whether the store answers.
func (s *Store) Ping(ctx context.Context) error {
	var one int
	return s.db.QueryRowContext(ctx, "SELECT 1 FROM schema_version").Scan(&one)
}

// Announce says that a row may come soon, until the function that it returns is called. SQLite's writer waits for it a little.
func (s *Store) Announce() func() {
	if s.writer == nil {
		return func() {}
	}
	s.writer.coming.Add(1)
	return func() { s.writer.coming.Add(-1) }
}

// Batches has the writer of SQLite call a function with the number of changes of each transaction.
func (s *Store) Batches(observe func(count int)) {
	if s.writer != nil {
		s.writer.observe.Store(observe)
	}
}

// do makes changes in a transaction, and returns once they are durable. An error that is none of this package's leaves it
// unknown whether they are.
func (s *Store) do(ctx context.Context, changes func(context.Context, *sql.Tx) error) error {
	if s.writer != nil {
		return s.writer.do(ctx, changes)
	}
	tx, err := s.db.BeginTx(ctx, nil)
	if err != nil {
		return err
	}
	defer tx.Rollback()
	if err := changes(ctx, tx); err != nil {
		return err
	}
	return tx.Commit()
}

// doLater makes changes that nobody waits for, or drops them if many others are waiting.
func (s *Store) doLater(changes func(context.Context, *sql.Tx) error, failed func(error)) {
	select {
	case s.later <- struct{}{}:
	default:
		failed(errors.New("the store is busy"))
		return
	}
	go func() {
		defer func() { <-s.later }()
		ctx, cancel := context.WithTimeout(context.Background(), time.Minute)
		defer cancel()
		if err := s.do(ctx, changes); err != nil {
			failed(err)
		}
	}()
}

func boolInt(is bool) int64 {
	if is {
		return 1
	}
	return 0
}

// rebind returns a statement in the store's dialect.
func (s *Store) rebind(statement string) string {
	if s.shared {
		return statement
	}
	return strings.ReplaceAll(statement, "$", "?")
}
