package groups

import (
	"context"
	"encoding/hex"
	"errors"

	"mlscheckd/internal/store"
)

// Undo goes back to the state before an accepted commit, which members refuse, and returns the group as it is then. If the
// commit was undone before, nothing changes.
func (s *Service) Undo(ctx context.Context, name string, commit int64) (store.Group, error) {
	g, err := s.hold(ctx, name)
	if err != nil {
		return store.Group{}, err
	}
	defer s.release(g)
	defer g.dropBroken()
	for try := 1; ; try++ {
		row, err := s.undo(ctx, g, commit)
		if !errors.Is(err, store.ErrConflict) {
			return row, err
		}
		if try == tries {
			return row, ErrBusy
		}
	}
}

func (s *Service) undo(ctx context.Context, g *group, commit int64) (store.Group, error) {
	row, err := s.store.Group(ctx, g.name)
	if err != nil {
		return row, err
	}
	rows, err := s.store.Rows(ctx, row.ID, commit-1, 1)
	if err != nil {
		return row, err
	}
	if len(rows) == 0 || rows[0].Seq != commit || rows[0].Kind != store.Commit {
		return row, store.ErrNoCommit
	}
	if rows[0].Undone != 0 {
		return row, nil
	}
	storing, cancel := s.storeContext()
	defer cancel()
	if err := s.store.Undo(storing, row, commit, s.now()); err != nil {
		if !errors.Is(err, store.ErrConflict) && !errors.Is(err, store.ErrConfirmed) && !errors.Is(err, store.ErrNoCommit) {
			g.drop() // it is unknown whether the commit is undone
		}
		return row, err
	}
	s.metrics.Undos.Inc()
	s.log.Info("undone", "group", g.name, "sequence", commit, "epoch", rows[0].Epoch, "digest", hex.EncodeToString(rows[0].Digest))
	after, err := s.store.Group(storing, g.name)
	if err != nil {
		g.drop()
		return after, err
	}
	// Otherwise it is loaded again, since the log has other rows that it does not have.
	isLast := g.seq == row.Seq && isHistory(row, g.row.History) && commit == row.Seq && after.Seq == row.Seq+1
	if g.handle == nil || !isLast || g.handle.Undo() != nil {
		g.drop()
		return after, nil
	}
	g.row, g.seq, g.last, g.count = after, after.Seq, nil, g.before
	g.undone[string(rows[0].Digest)] = after.Seq
	return after, nil
}

// Confirm notes that a member has processed the commit that began an epoch.
func (s *Service) Confirm(ctx context.Context, name string, epoch uint64) error {
	storing, cancel := s.storeContext()
	defer cancel()
	return s.store.Confirm(storing, name, epoch)
}
