package store

import (
	"context"
	"database/sql"
	"errors"
	"sync/atomic"
	"time"
)

// A writer makes all changes of a SQLite file. It commits what waits in one transaction, so that many changes share one sync,
// and tells each only once it is durable.
type writer struct {
	db      *sql.DB // one connection
	advance *sql.Stmt
	insert  *sql.Stmt
	changes chan change
	coming  atomic.Int64 // rows that may come soon
	observe atomic.Value // func(count int)
	ending  chan struct{}
	ended   chan struct{}
}

type change struct {
	ctx    context.Context
	make   func(context.Context, *sql.Tx) error
	result chan error
}

var errClosed = errors.New("the store is closed")

const (
	// largestBatch is how many changes a transaction has at most.
	largestBatch = 512

	// patience is how long the writer waits for rows that may come. A sync costs more.
	patience = 500 * time.Microsecond
)

func newWriter(ctx context.Context, s *Store, db *sql.DB) (w *writer, err error) {
	w = &writer{db: db, changes: make(chan change, 4096), ending: make(chan struct{}), ended: make(chan struct{})}
	w.observe.Store(func(int) {})
	if w.advance, err = db.PrepareContext(ctx, s.rebind(advance)); err != nil {
		return nil, err
	}
	if w.insert, err = db.PrepareContext(ctx, s.rebind(insert)); err != nil {
		return nil, err
	}
	go w.run()
	return w, nil
}

// close ends the writer, after what waits.
func (w *writer) close() error {
	close(w.ending)
	<-w.ended
	return w.db.Close()
}

// do has the writer make changes, and returns once they are durable.
func (w *writer) do(ctx context.Context, changes func(context.Context, *sql.Tx) error) error {
	c := change{ctx, changes, make(chan error, 1)}
	select {
	case w.changes <- c:
	case <-w.ended:
		return errClosed
	case <-ctx.Done():
		return ctx.Err()
	}
	select {
	case err := <-c.result:
		return err
	case <-w.ended:
		return errClosed
	case <-ctx.Done():
		return ctx.Err()
	}
}

func (w *writer) run() {
	defer close(w.ended)
	for {
		select {
		case first := <-w.changes:
			w.commit(w.gathered(first))
		case <-w.ending:
			for len(w.changes) > 0 {
				w.commit(w.gathered(<-w.changes))
			}
			return
		}
	}
}

// gathered returns what waits to be written. If other rows may come, it waits for them a little.
func (w *writer) gathered(first change) []change {
	batch := []change{first}
	timer := time.NewTimer(patience)
	defer timer.Stop()
	for waiting := true; len(batch) < largestBatch && (len(w.changes) > 0 || waiting && int64(len(batch)) < w.coming.Load()); {
		select {
		case next := <-w.changes:
			batch = append(batch, next)
		case <-timer.C:
			waiting = false
		}
	}
	return batch
}

// commit writes a batch, and tells each change what came of it.
func (w *writer) commit(batch []change) {
	results := make([]error, len(batch))
	err := w.write(batch, results)
	for i, c := range batch {
		if err != nil {
			results[i] = err
		}
		c.result <- results[i]
	}
	w.observe.Load().(func(int))(len(batch))
}

// write makes all changes of a batch in one transaction. If one fails in the database, none is made. One that ends with an error
// of this package has changed nothing, and does not disturb the others.
func (w *writer) write(batch []change, results []error) error {
	ctx := context.Background()
	tx, err := w.db.BeginTx(ctx, nil)
	if err != nil {
		return err
	}
	defer tx.Rollback()
	for i, c := range batch {
		if results[i] = c.ctx.Err(); results[i] != nil {
			continue
		}
		results[i] = c.make(ctx, tx)
		switch results[i] {
		case nil, ErrConflict, ErrNoGroup, ErrExists, ErrNoCommit, ErrConfirmed:
		default:
			return results[i]
		}
	}
	return tx.Commit()
}
