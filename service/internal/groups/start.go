package groups

import (
	"bytes"
	"context"
	"errors"

	"mlscheckd/internal/follow"
	"mlscheckd/internal/store"
)

// Options are what a group is followed by.
type Options struct {
	Profile follow.Profile
	Rules   follow.Rules
	Timed   bool // lifetimes are checked
}

// Start starts a group from a GroupInfo, and a tree if it is not in the GroupInfo, and says whether it is new. It may be called
// again with the same arguments. If the group was started from something else, the error is ErrOtherStart.
func (s *Service) Start(ctx context.Context, name string, o Options, info, tree []byte) (store.Group, bool, error) {
	if g, same, err := s.started(ctx, name, o, info, tree); same || err != nil {
		return g, false, err
	}
	if facts, ok := s.library.Info(info); ok {
		if err := over(facts.ContextSize, "bytes of a GroupContext", s.limits.Context); err != nil {
			return store.Group{}, false, err
		}
	}
	select {
	case s.starts <- struct{}{}:
		defer func() { <-s.starts }()
	case <-ctx.Done():
		return store.Group{}, false, ErrBusy
	}
	row, start, state, err := s.begin(o, info, tree)
	if err != nil {
		return store.Group{}, false, err
	}
	row.Name = name
	ctx, cancel := s.storeContext()
	defer cancel()
	if err := s.store.Create(ctx, row, start, state); errors.Is(err, store.ErrExists) {
		g, _, err := s.started(ctx, name, o, info, tree)
		return g, false, err
	} else if err != nil {
		return store.Group{}, false, err
	}
	g, err := s.store.Group(ctx, name)
	return g, err == nil, err
}

// storeContext returns the context of a change of the store, which does not end if the client goes away.
func (s *Service) storeContext() (context.Context, context.CancelFunc) {
	return context.WithTimeout(context.Background(), s.limits.Store)
}

// started says whether the group was started already, from this.
func (s *Service) started(ctx context.Context, name string, o Options, info, tree []byte) (store.Group, bool, error) {
	g, err := s.store.Group(ctx, name)
	if errors.Is(err, store.ErrNoGroup) {
		return g, false, nil
	}
	if err != nil {
		return g, false, err
	}
	start, err := s.store.Start(ctx, g.ID)
	if err != nil {
		return g, false, err
	}
	if !bytes.Equal(start.Info, info) || !bytes.Equal(start.Tree, tree) || g.Profile != uint32(o.Profile) ||
		g.Rules != uint16(o.Rules) || g.Timed != o.Timed {
		return g, false, ErrOtherStart
	}
	return g, true, nil
}

// begin starts a group, and returns what is stored of it.
func (s *Service) begin(o Options, info, tree []byte) (row store.Group, start store.Start, state store.State, err error) {
	listed, err := s.library.StartQuery(info, tree)
	if err != nil {
		return row, start, state, err
	}
	// One of the signatures is that of the GroupInfo, each other that of a member.
	if err := over(len(listed)-1, "members", s.limits.Members); err != nil {
		return row, start, state, err
	}
	good, err := s.verified(listed)
	if err != nil {
		return row, start, state, err
	}
	handle, err := s.library.Start(o.Profile, o.Rules, info, tree, good)
	if err != nil {
		return row, start, state, err
	}
	defer handle.Close()
	facts, err := handle.Facts()
	if err != nil {
		return row, start, state, err
	}
	if state.State, err = handle.State(); err != nil {
		return row, start, state, err
	}
	state.Receipts = joinReceipts(good)
	row = store.Group{Profile: uint32(o.Profile), Rules: uint16(o.Rules), Timed: o.Timed, Epoch: facts.Epoch,
		Members: facts.Members, Ended: facts.Ended, Changed: s.now()}
	start = store.Start{Info: info, Tree: tree, Receipts: state.Receipts, Checker: s.library.Version()}
	return row, start, state, nil
}
