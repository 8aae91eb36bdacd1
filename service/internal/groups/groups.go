// Package groups is the core of the service: it has the library judge a message, stores an accepted one in its place, and only
// then answers.
//
// A group in memory is never ahead of the store when a message is judged: what a message leads to is staged, and applied only
// once the message is stored. If the store does not say whether it is, the group is loaded again from what the store has. If the
// store is ahead, by another instance or by a row of which it did not say what came, the group catches up, and the message is
// judged again. A message is accepted on the condition that the store's log is the group's, and refused only after the store was
// asked whether it is.
package groups

import (
	"container/list"
	"context"
	"strings"
	"sync"
	"time"
	"unicode"
	"unicode/utf8"

	"mlscheckd/internal/events"
	"mlscheckd/internal/follow"
	"mlscheckd/internal/metrics"
	"mlscheckd/internal/store"
	"mlscheckd/internal/verify"
)

// A Store keeps groups: a *store.Store.
type Store interface {
	Ping(ctx context.Context) error
	Announce() func()
	Create(ctx context.Context, g store.Group, start store.Start, state store.State) error
	Append(ctx context.Context, g store.Group, r store.Row) error
	Undo(ctx context.Context, g store.Group, commit int64, at time.Time) error
	Confirm(ctx context.Context, name string, epoch uint64) error
	Group(ctx context.Context, name string) (store.Group, error)
	Groups(ctx context.Context, after string, limit int) ([]store.Group, error)
	Start(ctx context.Context, group int64) (store.Start, error)
	Load(ctx context.Context, name string) (store.Loaded, error)
	Rows(ctx context.Context, group, after int64, limit int) ([]store.Row, error)
	Find(ctx context.Context, group int64, digest []byte) (store.Row, bool, error)
	KeepState(group int64, digest []byte, state store.State, failed func(error))
	KeepRefusal(group int64, r store.Refusal)
	Refusals(ctx context.Context, group int64, limit int) ([]store.Refusal, error)
}

// A Service follows the groups of a store. It is safe for use by several goroutines.
type Service struct {
	store   Store
	library follow.Library
	limits  Limits
	metrics *metrics.Metrics
	log     *events.Log
	verify  func([]follow.Signature) ([]follow.Receipt, error)
	now     func() time.Time
	starts  chan struct{}
	after   sync.WaitGroup // what is done after answers

	mu     sync.Mutex
	groups map[string]*group
	used   *list.List // the most recently used one first
	size   int64
}

// New returns a service over a store and a library.
func New(store Store, library follow.Library, limits Limits, m *metrics.Metrics, log *events.Log) *Service {
	return &Service{
		store: store, library: library, limits: limits, metrics: m, log: log, verify: verify.Good, now: time.Now,
		starts: make(chan struct{}, limits.Starts), groups: map[string]*group{}, used: list.New(),
	}
}

// Close waits for what is done after answers, and lets all groups go. No other call may be made afterwards.
func (s *Service) Close() {
	s.after.Wait()
	s.mu.Lock()
	defer s.mu.Unlock()
	for _, g := range s.groups {
		g.drop()
	}
}

// verified returns the receipts of the good signatures.
func (s *Service) verified(listed []follow.Signature) ([]follow.Receipt, error) {
	s.metrics.Signatures(len(listed))
	return s.verify(listed)
}

// IsName says whether a text may be the name of a group: 1 to 255 bytes of UTF-8 without control characters. Those of folders in a
// path are none.
func IsName(name string) bool {
	return name != "" && name != "." && name != ".." && len(name) <= 255 && utf8.ValidString(name) &&
		strings.IndexFunc(name, unicode.IsControl) < 0
}
