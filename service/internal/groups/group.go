package groups

import (
	"bytes"
	"container/list"
	"context"
	"fmt"
	"time"

	"mlscheckd/internal/follow"
	"mlscheckd/internal/store"
)

// A group is one that is followed, or was. Whoever holds its lock may use it.
type group struct {
	name string
	lock chan struct{} // has a value while somebody holds the lock

	// The service's lock guards these.
	place *list.Element
	users int // who holds the lock or waits for it
	size  int64

	handle  follow.Group // nil if the group is not in memory
	row     store.Group
	seq     int64            // of the log that the handle has
	last    []byte           // the digest of its last row
	unsaved []follow.Receipt // what was learnt since the last row
	state   int              // bytes of the last stored state
	undone  map[string]int64 // the digests of the commits that were undone, and the sequences of their undos
	count   counts
	before  counts // the last commit
}

// counts are of the messages since the last stored state and of the epoch.
type counts struct {
	bytes, messages int
	pending         int
	adds            map[string]bool // the references of the Adds that are pending
}

// drop lets the handle go. It is loaded again when the next message comes.
func (g *group) drop() {
	if g.handle != nil {
		g.handle.Close()
	}
	g.handle, g.unsaved, g.undone = nil, nil, nil
}

// dropBroken lets the handle go if the caller panics, since nothing is known of it then. It is to be deferred.
func (g *group) dropBroken() {
	if broken := recover(); broken != nil {
		g.drop()
		panic(broken)
	}
}

// hold waits until nobody else uses the group, which is put into memory if it is not there. If too many wait for it, the service
// is busy: those of one group must not keep the others out.
func (s *Service) hold(ctx context.Context, name string) (*group, error) {
	s.mu.Lock()
	g := s.groups[name]
	if g == nil {
		g = &group{name: name, lock: make(chan struct{}, 1)}
		g.place = s.used.PushFront(g)
		s.groups[name] = g
	} else {
		s.used.MoveToFront(g.place)
	}
	if g.users > s.limits.Waiting {
		s.mu.Unlock()
		return nil, ErrBusy
	}
	g.users++
	s.mu.Unlock()
	select {
	case g.lock <- struct{}{}:
		return g, nil
	case <-ctx.Done():
		s.leave(g, unchanged)
		return nil, ErrBusy
	}
}

// release lets others use the group.
func (s *Service) release(g *group) {
	size := int64(0)
	if g.handle != nil {
		size = g.handle.Size() + int64(len(g.unsaved)*32)
	}
	<-g.lock
	s.leave(g, size)
}

// unchanged is the size of a group that was not used.
const unchanged = -1

// leave notes that one less uses the group, which has this size now. Groups beyond the limit are let go, the least recently used
// first.
func (s *Service) leave(g *group, size int64) {
	var gone []*group
	s.mu.Lock()
	g.users--
	if size != unchanged {
		s.size += size - g.size
		g.size = size
	}
	if g.users == 0 && g.size == 0 {
		gone = append(gone, s.forget(g))
	}
	for at := s.used.Back(); at != nil && s.size > s.limits.Bytes; {
		old := at.Value.(*group)
		at = at.Prev()
		if old.users == 0 {
			gone = append(gone, s.forget(old))
			s.metrics.Evictions.Inc()
		}
	}
	s.metrics.Groups.Set(float64(len(s.groups)))
	s.metrics.Bytes.Set(float64(s.size))
	s.mu.Unlock()
	for _, old := range gone {
		old.drop()
	}
}

// forget takes a group that nobody uses out of the service.
func (s *Service) forget(g *group) *group {
	s.used.Remove(g.place)
	delete(s.groups, g.name)
	s.size -= g.size
	return g
}

// load resumes a group from its last stored state, and processes what was accepted after it.
func (s *Service) load(ctx context.Context, g *group) error {
	begun := time.Now()
	g.drop()
	l, err := s.store.Load(ctx, g.name)
	if err != nil {
		return err
	}
	handle, err := s.resume(l.Group, l.State)
	if err != nil {
		return err
	}
	g.handle, g.row, g.seq, g.last, g.state, g.undone = handle, l.Group, l.State.Seq, nil, len(l.State.State), l.Undone
	g.count, g.before = counts{}, counts{}
	if err := s.replay(g, l.Rows); err != nil {
		g.drop()
		return err
	}
	s.metrics.Load(time.Since(begun))
	return nil
}

// resume resumes a group from a stored state, by the receipts that were stored with it. If one lacks, the signatures of the
// state are verified again.
func (s *Service) resume(row store.Group, state store.State) (follow.Group, error) {
	good := splitReceipts(state.Receipts)
	handle, err := s.library.Resume(follow.Profile(row.Profile), state.State, good)
	if _, refused := err.(follow.Refused); refused {
		listed, err := s.library.ResumeQuery(state.State, good)
		if err != nil {
			return nil, notResumed(row, state, err)
		}
		more, err := s.verified(listed)
		if err != nil {
			return nil, err
		}
		handle, err = s.library.Resume(follow.Profile(row.Profile), state.State, append(good, more...))
		if err != nil {
			return nil, notResumed(row, state, err)
		}
		return handle, nil
	}
	return handle, err
}

// notResumed returns the error of a stored state from which no group is resumed. It is a fault, and no follow.Refused: that is for
// whoever starts a group.
func notResumed(row store.Group, state store.State, err error) error {
	return fmt.Errorf("the stored state %d of %q is not resumed: %v", state.Seq, row.Name, err)
}

// replay processes rows of the log that were accepted before, here or by another instance. No lifetime is checked: it may have
// passed since. The handle may have changed if there is an error.
func (s *Service) replay(g *group, rows []store.Row) error {
	for _, r := range rows {
		if r.Kind != store.Undo {
			// What was learnt with a row that was undone is good all the same, and a later row may need it.
			if err := g.handle.Learn(splitReceipts(r.Receipts)); err != nil {
				return err
			}
		}
		if r.Kind != store.Undo && r.Undone == 0 {
			staged, err := s.restage(g, r)
			if err != nil {
				return fmt.Errorf("the stored message %d of %q is not accepted: %w", r.Seq, g.name, err)
			}
			if err := g.handle.Apply(); err != nil {
				return err
			}
			s.note(g, r.Message, staged)
		}
		g.seq, g.last = r.Seq, r.Digest
	}
	g.row.Seq = g.seq
	return nil
}

// restage stages a message that was accepted before. If a receipt lacks, its signatures are verified again.
func (s *Service) restage(g *group, r store.Row) (follow.Staged, error) {
	staged, err := g.handle.Stage(r.Message, time.Time{})
	if _, refused := err.(follow.Refusal); !refused {
		return staged, err
	}
	listed, err := g.handle.Query(r.Message)
	if err != nil {
		return follow.Staged{}, err
	}
	good, err := s.verified(listed)
	if err != nil {
		return follow.Staged{}, err
	}
	if err := g.handle.Learn(good); err != nil {
		return follow.Staged{}, err
	}
	g.unsaved = append(g.unsaved, good...)
	return g.handle.Stage(r.Message, time.Time{})
}

// note counts a message that was applied.
func (s *Service) note(g *group, message []byte, staged follow.Staged) {
	g.row.Epoch, g.row.Members, g.row.Ended = staged.Epoch, staged.Members, staged.Ended
	if staged.Reference == nil {
		g.before = g.count
		g.count = counts{bytes: g.count.bytes + len(message), messages: g.count.messages + 1}
		return
	}
	g.count.bytes += len(message)
	g.count.messages++
	g.count.pending++
	if facts := s.library.Message(message); len(facts.Proposals) == 1 && facts.Proposals[0].Type == follow.ProposalAdd {
		if g.count.adds == nil {
			g.count.adds = map[string]bool{}
		}
		g.count.adds[string(staged.Reference)] = true
	}
}

// refresh brings a group to the end of the stored log. If it was not there, the error is store.ErrConflict, and what was asked of
// it is to be asked again.
func (s *Service) refresh(ctx context.Context, g *group) error {
	row, err := s.store.Group(ctx, g.name)
	if err != nil || row.Seq == g.seq && isHistory(row, g.row.History) {
		return err
	}
	if err := s.catchUp(ctx, g, row); err != nil {
		return err
	}
	return store.ErrConflict
}

// catchUp brings a group to the end of the stored log, by the rows that it lacks. If they are many, or do not follow on what the
// group has, it is loaded.
func (s *Service) catchUp(ctx context.Context, g *group, stored store.Group) error {
	if stored.Seq-g.seq > mostMessages {
		return s.load(ctx, g)
	}
	rows, err := s.store.Rows(ctx, g.row.ID, g.seq, -1)
	if err != nil {
		return err
	}
	history, follows := historyAfter(g, stored, rows)
	if !follows {
		return s.load(ctx, g)
	}
	if err := s.replay(g, rows); err != nil {
		g.drop()
		return err
	}
	g.row.History = history
	return nil
}

// historyAfter returns the history of a group with more rows of the stored log. It says whether they follow on what the group has: no
// commit was undone, and the log before them is the group's. It is another one after the store has lost rows.
func historyAfter(g *group, stored store.Group, rows []store.Row) (history []byte, follow bool) {
	history = g.row.History
	for _, r := range rows {
		if history = r.After(history); r.Kind == store.Undo {
			return history, false
		}
		follow = follow || r.Seq == stored.Seq && isHistory(stored, history)
	}
	return history, follow
}

func isHistory(stored store.Group, history []byte) bool { return bytes.Equal(stored.History, history) }

// A state is stored once the messages since the last one have as many bytes as it has, and at least these, or there are this
// many. So what is written at most about doubles, and what a load reads is at most about twice a state.
const (
	leastBytes   = 32 << 10
	mostMessages = 256
)

// due says whether the state is to be stored. A good time is after a commit, when no proposal is pending.
func (g *group) due() bool {
	return g.handle != nil && g.count.pending == 0 && (g.count.bytes >= leastBytes || g.count.messages >= mostMessages) &&
		g.count.bytes >= g.state
}

// keep stores the state, and forgets the receipts that it does not need. After an error the handle is to be dropped.
func (s *Service) keep(g *group) error {
	begun := time.Now()
	state, err := g.handle.State()
	if err != nil {
		return err
	}
	listed, err := s.library.ResumeQuery(state, nil)
	if err != nil {
		return err
	}
	// Each of them is good: it was learnt when the leaf came into the tree.
	var receipts []byte
	for _, l := range listed {
		receipts = append(receipts, l.Receipt[:]...)
	}
	if err := g.handle.Forget(); err != nil {
		return err
	}
	g.unsaved, g.state, g.count.bytes, g.count.messages = nil, len(state), 0, 0
	s.store.KeepState(g.row.ID, g.last, store.State{Seq: g.seq, State: state, Receipts: receipts}, func(err error) {
		s.log.Error("state_not_stored", err, "group", g.name)
	})
	s.metrics.State(time.Since(begun))
	return nil
}

func joinReceipts(receipts []follow.Receipt) []byte {
	all := make([]byte, 0, 32*len(receipts))
	for _, r := range receipts {
		all = append(all, r[:]...)
	}
	return all
}

func splitReceipts(all []byte) (receipts []follow.Receipt) {
	for ; len(all) >= 32; all = all[32:] {
		receipts = append(receipts, *(*follow.Receipt)(all))
	}
	return receipts
}
