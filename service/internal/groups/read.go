package groups

import (
	"context"
	"encoding/hex"
	"errors"
	"io"

	"mlscheckd/internal/follow"
	"mlscheckd/internal/store"
	"mlscheckd/internal/wire"
)

// Ping says whether the store answers.
func (s *Service) Ping(ctx context.Context) error { return s.store.Ping(ctx) }

// Group returns the group of this name.
func (s *Service) Group(ctx context.Context, name string) (store.Group, error) {
	return s.store.Group(ctx, name)
}

// Groups returns the groups whose names come after one, at most limit.
func (s *Service) Groups(ctx context.Context, after string, limit int) ([]store.Group, error) {
	return s.store.Groups(ctx, after, limit)
}

// mostBytes is about how many bytes of messages Rows returns at most.
const mostBytes = 4 << 20

// Rows returns the rows of a group's log after a sequence, at most limit. It returns fewer if they have many bytes, and at least
// one if there is one.
func (s *Service) Rows(ctx context.Context, group, after int64, limit int) (list []store.Row, err error) {
	for size := 0; limit > 0 && size < mostBytes; {
		rows, err := s.store.Rows(ctx, group, after, min(limit, page))
		if err != nil {
			return nil, err
		}
		for _, r := range rows {
			size += len(r.Message) + len(r.Receipts)
			after = r.Seq
		}
		list = append(list, rows...)
		if limit -= len(rows); len(rows) < page {
			break
		}
	}
	return list, nil
}

// Refusals returns the last refused messages of a group, at most limit.
func (s *Service) Refusals(ctx context.Context, group int64, limit int) ([]store.Refusal, error) {
	return s.store.Refusals(ctx, group, limit)
}

// StartOf returns what a group was started from.
func (s *Service) StartOf(ctx context.Context, group int64) (store.Start, error) {
	return s.store.Start(ctx, group)
}

// read has a function read a group as the store has it, and returns the sequence that it is at.
func (s *Service) read(ctx context.Context, name string, of func(follow.Group) error) (int64, error) {
	g, err := s.hold(ctx, name)
	if err != nil {
		return 0, err
	}
	defer s.release(g)
	defer g.dropBroken()
	if g.handle == nil {
		err = s.load(ctx, g)
	} else if err = s.refresh(ctx, g); errors.Is(err, store.ErrConflict) {
		err = nil // it is now
	}
	if err != nil {
		return 0, err
	}
	seq := g.seq
	if err := of(g.handle); err != nil {
		g.drop()
		return 0, err
	}
	return seq, nil
}

// State returns the state of a group, and the sequence of the log that it is at.
func (s *Service) State(ctx context.Context, name string) (state []byte, seq int64, err error) {
	seq, err = s.read(ctx, name, func(g follow.Group) error {
		state, err = g.State()
		return err
	})
	return state, seq, err
}

// Tree returns the ratchet tree of a group, and the sequence of the log that it is at.
func (s *Service) Tree(ctx context.Context, name string) (tree []byte, seq int64, err error) {
	seq, err = s.read(ctx, name, func(g follow.Group) error {
		tree, err = g.Tree()
		return err
	})
	return tree, seq, err
}

// Nodes returns the nodes of a group's tree, by node index.
func (s *Service) Nodes(ctx context.Context, name string) (nodes []follow.Node, err error) {
	_, err = s.read(ctx, name, func(g follow.Group) error {
		nodes, err = g.Nodes()
		return err
	})
	return nodes, err
}

// errUndo says that a commit was undone while the log was written.
var errUndo = errors.New("a commit was undone meanwhile")

// page is how many rows are read at a time. Each may have a message of the largest size.
const page = 64

// each calls a function for each row of the log, up to a sequence. The rows are read in parts, so that no transaction of the
// database lasts as long as a client takes to read: if a commit is undone meanwhile, the error says so.
func (s *Service) each(ctx context.Context, g store.Group, until int64, row func(store.Row) error) error {
	for after := int64(0); ; {
		rows, err := s.store.Rows(ctx, g.ID, after, page)
		if err != nil || len(rows) == 0 {
			return err
		}
		for _, r := range rows {
			if r.Kind == store.Undo && r.Seq > g.Seq {
				return errUndo
			}
			if r.Seq <= until {
				if err := row(r); err != nil {
					return err
				}
			}
		}
		after = rows[len(rows)-1].Seq
	}
}

// WriteLog writes the accepted messages of a log up to a sequence, as `mlscheck replay` reads them, without those that were
// undone.
func (s *Service) WriteLog(ctx context.Context, g store.Group, until int64, w io.Writer) error {
	return s.each(ctx, g, until, func(r store.Row) error {
		if r.Kind == store.Undo || r.Undone != 0 {
			return nil
		}
		_, err := w.Write(record(r.Message))
		return err
	})
}

// WriteReceipts writes the receipts of a start and of the messages of a log up to a sequence, as `mlscheck replay` reads them.
func (s *Service) WriteReceipts(ctx context.Context, g store.Group, until int64, w io.Writer) error {
	start, err := s.store.Start(ctx, g.ID)
	if err != nil {
		return err
	}
	lines := func(receipts []byte) error {
		for _, r := range splitReceipts(receipts) {
			if _, err := io.WriteString(w, hex.EncodeToString(r[:])+"\n"); err != nil {
				return err
			}
		}
		return nil
	}
	if err := lines(start.Receipts); err != nil {
		return err
	}
	return s.each(ctx, g, until, func(r store.Row) error { return lines(r.Receipts) })
}

// record returns a message as a vector (RFC 9420, 2.1.2), as logs have it.
func record(message []byte) []byte { return wire.AppendVector(nil, message) }
