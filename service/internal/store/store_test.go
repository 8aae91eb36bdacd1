package store_test

import (
	"context"
	"crypto/sha256"
	"database/sql"
	"errors"
	"fmt"
	"math"
	"strings"
	"sync"
	"testing"
	"time"

	"mlscheckd/internal/store"
	"mlscheckd/internal/store/storetest"
)

var ctx = context.Background()

// at is a time in whole milliseconds.
var at = time.UnixMilli(1700000000123)

func create(t *testing.T, s *store.Store, name string) store.Group {
	t.Helper()
	g := store.Group{Name: name, Profile: 2, Rules: 0x1fff, Timed: true, Epoch: 3, Members: 2, Changed: at}
	start := store.Start{Info: []byte("info"), Tree: []byte("tree"), Receipts: []byte("receipts"), Checker: "test"}
	if err := s.Create(ctx, g, start, store.State{State: []byte("state 0"), Receipts: []byte("receipts")}); err != nil {
		t.Fatal(err)
	}
	g, err := s.Group(ctx, name)
	if err != nil {
		t.Fatal(err)
	}
	return g
}

func row(seq int64, kind store.Kind, epoch uint64) store.Row {
	message := []byte(fmt.Sprint("message ", seq, " of epoch ", epoch))
	digest := sha256.Sum256(message)
	return store.Row{Seq: seq, Kind: kind, Digest: digest[:], Message: message, Receipts: []byte{byte(seq)},
		Answer: fmt.Sprintf(`{"sequence":%d}`, seq), Epoch: epoch, Members: uint32(seq), At: at, Checker: "test"}
}

// add adds a row to the log of the group g.
func add(t *testing.T, s *store.Store, r store.Row) {
	t.Helper()
	g, err := s.Group(ctx, "g")
	if err == nil {
		err = s.Append(ctx, g, r)
	}
	if err != nil {
		t.Fatal(err)
	}
}

// soon waits until something is so.
func soon(t *testing.T, what string, is func() bool) {
	t.Helper()
	for end := time.Now().Add(time.Minute); !is(); time.Sleep(time.Millisecond) {
		if time.Now().After(end) {
			t.Fatal(what)
		}
	}
}

func expect(t *testing.T, got, want error) {
	t.Helper()
	if !errors.Is(got, want) || want == nil && got != nil {
		t.Fatalf("%v, and not %v", got, want)
	}
}

func same(t *testing.T, got, want any) {
	t.Helper()
	if fmt.Sprintf("%+v", got) != fmt.Sprintf("%+v", want) {
		t.Fatalf("\n%+v, and not\n%+v", got, want)
	}
}

func TestGroups(t *testing.T) {
	storetest.Each(t, func(t *testing.T, name string) {
		s := storetest.Open(t, name)
		_, err := s.Group(ctx, "a")
		expect(t, err, store.ErrNoGroup)
		odd := []string{"a", "B", "'; DROP TABLE groups; --", `"`, "<script>", "ä", "🙂", "%_", strings.Repeat("x", 255)}
		for _, name := range odd {
			g := create(t, s, name)
			same(t, g, store.Group{ID: g.ID, Name: name, Profile: 2, Rules: 0x1fff, Timed: true, Epoch: 3, Members: 2, Changed: at})
			expect(t, s.Create(ctx, g, store.Start{}, store.State{}), store.ErrExists)
		}
		var got []string
		for after := ""; ; {
			page, err := s.Groups(ctx, after, 2)
			expect(t, err, nil)
			if len(page) == 0 {
				break
			}
			for _, g := range page {
				got = append(got, g.Name)
			}
			after = got[len(got)-1]
		}
		// The order of the bytes of UTF-8.
		same(t, got, []string{`"`, "%_", "'; DROP TABLE groups; --", "<script>", "B", "a", strings.Repeat("x", 255), "ä", "🙂"})
		g, _ := s.Group(ctx, "a")
		start, err := s.Start(ctx, g.ID)
		expect(t, err, nil)
		same(t, start, store.Start{Info: []byte("info"), Tree: []byte("tree"), Receipts: []byte("receipts"), Epoch: 3, Members: 2, Checker: "test"})
	})
}

// A row is only added at the next place.
func TestAppend(t *testing.T) {
	storetest.Each(t, func(t *testing.T, name string) {
		s := storetest.Open(t, name)
		g := create(t, s, "g")
		first := row(1, store.Proposal, 3)
		add(t, s, first)
		expect(t, s.Append(ctx, g, row(1, store.Commit, 4)), store.ErrConflict)
		g.Seq, g.History = 1, first.After(nil)
		expect(t, s.Append(ctx, g, row(1, store.Commit, 4)), store.ErrConflict)
		expect(t, s.Append(ctx, g, row(3, store.Commit, 4)), store.ErrConflict)
		// At the place, but after another log, or of another group.
		for _, other := range []store.Group{{ID: g.ID, Seq: 1}, {ID: g.ID, Seq: 1, History: row(1, store.Commit, 3).After(nil)},
			{ID: g.ID + 1, Seq: 1, History: g.History}} {
			expect(t, s.Append(ctx, other, row(2, store.Commit, 4)), store.ErrConflict)
		}
		second := row(2, store.Commit, math.MaxUint64)
		second.Ended = true
		add(t, s, second)
		g, err := s.Group(ctx, "g")
		expect(t, err, nil)
		same(t, g, store.Group{ID: g.ID, Name: "g", Profile: 2, Rules: 0x1fff, Timed: true, Seq: 2, History: second.After(first.After(nil)),
			Epoch: math.MaxUint64, Members: 2, Ended: true, Changed: at})
		rows, err := s.Rows(ctx, g.ID, 0, 10)
		expect(t, err, nil)
		same(t, rows, []store.Row{first, second})
		rows, err = s.Rows(ctx, g.ID, 1, 1)
		expect(t, err, nil)
		same(t, rows, []store.Row{second})
		found, is, err := s.Find(ctx, g.ID, first.Digest)
		expect(t, err, nil)
		same(t, found, first)
		if _, other, err := s.Find(ctx, g.ID+1, first.Digest); !is || other || err != nil {
			t.Fatal(is, other, err)
		}
		l, err := s.Load(ctx, "g")
		expect(t, err, nil)
		same(t, l, store.Loaded{Group: g, State: store.State{State: []byte("state 0"), Receipts: []byte("receipts")},
			Rows: []store.Row{first, second}, Undone: map[string]int64{}})
	})
}

// Of many that want one place, one gets it, also if two stores are open.
func TestRace(t *testing.T) {
	storetest.Each(t, func(t *testing.T, name string) {
		one := storetest.Open(t, name)
		stores := []*store.Store{one, one}
		if one.Shared() {
			stores[1] = storetest.Open(t, name)
		}
		create(t, one, "g")
		const rivals, places = 8, 20
		var mu sync.Mutex
		won := map[int64]int{}
		var all sync.WaitGroup
		for i := 0; i < rivals; i++ {
			all.Add(1)
			go func(s *store.Store) {
				defer all.Done()
				for {
					g, err := s.Group(ctx, "g")
					if err != nil {
						t.Error(err)
					}
					if err != nil || g.Seq == places {
						return
					}
					done := s.Announce()
					err = s.Append(ctx, g, row(g.Seq+1, store.Commit, uint64(g.Seq+1)))
					done()
					if err == nil {
						mu.Lock()
						won[g.Seq+1]++
						mu.Unlock()
					} else if !errors.Is(err, store.ErrConflict) {
						t.Error(err)
						return
					}
				}
			}(stores[i%2])
		}
		all.Wait()
		for seq := int64(1); seq <= places; seq++ {
			if won[seq] != 1 {
				t.Errorf("%d had the place %d", won[seq], seq)
			}
		}
	})
}

func TestUndo(t *testing.T) {
	storetest.Each(t, func(t *testing.T, name string) {
		s := storetest.Open(t, name)
		g := create(t, s, "g")
		rows := []store.Row{row(1, store.Proposal, 3), row(2, store.Commit, 4), row(3, store.Proposal, 4), row(4, store.Commit, 5)}
		for _, r := range rows {
			add(t, s, r)
		}
		states(t, s, g.ID, 2, 4)
		stale := g
		g, _ = s.Group(ctx, "g")
		expect(t, s.Undo(ctx, stale, 4, at), store.ErrConflict)
		other := g
		other.History = stale.History
		expect(t, s.Undo(ctx, other, 4, at), store.ErrConflict)
		expect(t, s.Undo(ctx, g, 3, at), store.ErrNoCommit)
		expect(t, s.Undo(ctx, g, 5, at), store.ErrNoCommit)
		expect(t, s.Undo(ctx, g, 4, at), nil)
		before := g.History
		g, _ = s.Group(ctx, "g")
		same(t, g, store.Group{ID: g.ID, Name: "g", Profile: 2, Rules: 0x1fff, Timed: true, Seq: 5,
			History: store.Row{Kind: store.Undo, Answer: `{"undoes":4}`}.After(before), Epoch: 4, Members: 3, Changed: at})
		expect(t, s.Undo(ctx, g, 4, at), store.ErrNoCommit)
		l, err := s.Load(ctx, "g")
		expect(t, err, nil)
		rows[3].Undone = 5
		undo := store.Row{Seq: 5, Kind: store.Undo, Digest: []byte{}, Message: []byte{}, Receipts: []byte{}, Answer: `{"undoes":4}`,
			Epoch: 4, Members: 3, At: at}
		same(t, l, store.Loaded{Group: g, State: store.State{Seq: 2, State: []byte("state 2"), Receipts: []byte("receipts 2")},
			Rows: []store.Row{rows[2], rows[3], undo}, Undone: map[string]int64{string(rows[3].Digest): 5}})

		// The first commit, and all after it.
		expect(t, s.Undo(ctx, g, 2, at), nil)
		g, _ = s.Group(ctx, "g")
		if g.Seq != 6 || g.Epoch != 3 || g.Members != 1 {
			t.Fatal(g)
		}
		l, _ = s.Load(ctx, "g")
		if l.State.Seq != 0 || l.Rows[2].Undone != 6 || l.Rows[3].Undone != 5 || l.Rows[0].Undone != 0 || len(l.Undone) != 2 {
			t.Fatal(l)
		}
		add(t, s, row(7, store.Commit, 4))
		found, _, err := s.Find(ctx, g.ID, row(7, store.Commit, 4).Digest)
		if err != nil || found.Undone != 0 {
			t.Fatal(found, err)
		}
		g, _ = s.Group(ctx, "g")
		expect(t, s.Undo(ctx, g, 7, at), nil)
	})
}

// The first commit of a group is undone to its start.
func TestUndoToStart(t *testing.T) {
	storetest.Each(t, func(t *testing.T, name string) {
		s := storetest.Open(t, name)
		g := create(t, s, "g")
		last := row(1, store.Commit, 4)
		last.Ended = true
		add(t, s, last)
		g, _ = s.Group(ctx, "g")
		expect(t, s.Undo(ctx, g, 1, at), nil)
		g, _ = s.Group(ctx, "g")
		if g.Seq != 2 || g.Epoch != 3 || g.Members != 2 || g.Ended {
			t.Fatal(g)
		}
	})
}

func TestConfirm(t *testing.T) {
	storetest.Each(t, func(t *testing.T, name string) {
		s := storetest.Open(t, name)
		expect(t, s.Confirm(ctx, "g", 3), store.ErrNoGroup)
		g := create(t, s, "g")
		for i, r := range []store.Row{row(1, store.Commit, 4), row(2, store.Proposal, 4), row(3, store.Commit, 5), row(4, store.Commit, 6)} {
			add(t, s, r)
			expect(t, s.Confirm(ctx, "g", 7), store.ErrNoCommit)
			expect(t, s.Confirm(ctx, "g", 3), nil)
			if g, _ := s.Group(ctx, "g"); g.Seq != int64(i+1) || g.Confirmed != 0 {
				t.Fatal(g)
			}
		}
		expect(t, s.Confirm(ctx, "g", 5), nil)
		expect(t, s.Confirm(ctx, "g", 4), nil)
		g, _ = s.Group(ctx, "g")
		if g.Confirmed != 3 {
			t.Fatal(g)
		}
		expect(t, s.Undo(ctx, g, 1, at), store.ErrConfirmed)
		expect(t, s.Undo(ctx, g, 3, at), store.ErrConfirmed)
		expect(t, s.Undo(ctx, g, 4, at), nil)
		expect(t, s.Confirm(ctx, "g", 6), store.ErrNoCommit)
	})
}

// states stores states, and waits until they are there.
func states(t *testing.T, s *store.Store, group int64, at ...int64) {
	t.Helper()
	for _, seq := range at {
		rows, err := s.Rows(ctx, group, seq-1, 1)
		expect(t, err, nil)
		s.KeepState(group, rows[0].Digest, store.State{Seq: seq, State: []byte(fmt.Sprint("state ", seq)), Receipts: []byte(fmt.Sprint("receipts ", seq))},
			func(err error) { t.Error(err) })
		soon(t, "the state is not there", func() bool {
			l, err := s.Load(ctx, "g")
			expect(t, err, nil)
			return l.State.Seq >= seq
		})
	}
}

// The first state and the last two are kept. One that is older than the last, of a row that was undone, or of a log with another row
// in its place, is not stored.
func TestStates(t *testing.T) {
	storetest.Each(t, func(t *testing.T, name string) {
		s := storetest.Open(t, name)
		g := create(t, s, "g")
		for seq := int64(1); seq <= 9; seq++ {
			add(t, s, row(seq, store.Commit, uint64(seq+3)))
		}
		states(t, s, g.ID, 2, 4, 6, 8)
		for _, test := range []struct{ undo, state int64 }{{8, 6}, {5, 0}} {
			g, _ = s.Group(ctx, "g")
			expect(t, s.Undo(ctx, g, test.undo, at), nil)
			l, err := s.Load(ctx, "g")
			expect(t, err, nil)
			if l.State.Seq != test.state {
				t.Fatal(test, l.State)
			}
		}
		for _, late := range []store.Row{row(4, store.Proposal, 4), row(5, store.Commit, 8), row(9, store.Commit, 12)} {
			s.KeepState(g.ID, late.Digest, store.State{Seq: late.Seq, State: []byte("late")}, func(err error) { t.Error(err) })
		}
		states(t, s, g.ID, 3)
		l, _ := s.Load(ctx, "g")
		if l.State.Seq != 3 {
			t.Fatal(l.State)
		}
	})
}

func TestRefusals(t *testing.T) {
	storetest.Each(t, func(t *testing.T, name string) {
		s := storetest.Open(t, name)
		g := create(t, s, "g")
		kept := func() []store.Refusal {
			list, err := s.Refusals(ctx, g.ID, 1000)
			expect(t, err, nil)
			return list
		}
		for i := 1; i <= store.KeptRefusals+5; i++ {
			s.KeepRefusal(g.ID, store.Refusal{At: at, Rule: 25, Inner: 5, Leaf: uint32(i), Epoch: math.MaxUint64, Digest: []byte("d"),
				Message: []byte("m")})
			soon(t, "the refusal is not there", func() bool {
				list := kept()
				return len(list) > 0 && list[0].Leaf == uint32(i)
			})
		}
		list := kept()
		if len(list) != store.KeptRefusals {
			t.Fatal(len(list))
		}
		same(t, list[0], store.Refusal{At: at, Rule: 25, Inner: 5, Leaf: store.KeptRefusals + 5, Epoch: math.MaxUint64, Digest: []byte("d"),
			Message: []byte("m")})
	})
}

// What was stored is there after the store was closed, and a second process is kept from SQLite's file.
func TestOpenAgain(t *testing.T) {
	storetest.Each(t, func(t *testing.T, name string) {
		s := storetest.Open(t, name)
		g := create(t, s, "g")
		add(t, s, row(1, store.Commit, 4))
		expect(t, s.Ping(ctx), nil)
		if other, err := store.Open(ctx, name); !s.Shared() && err == nil {
			t.Fatal("two processes have the file")
		} else if s.Shared() {
			expect(t, err, nil)
			other.Close()
		}
		expect(t, s.Close(), nil)
		s = storetest.Open(t, name)
		g, err := s.Group(ctx, "g")
		expect(t, err, nil)
		if g.Seq != 1 {
			t.Fatal(g)
		}
	})
}

// Tables of a later version are not touched.
func TestNewer(t *testing.T) {
	storetest.Each(t, func(t *testing.T, name string) {
		s := storetest.Open(t, name)
		driver, dsn := "sqlite3", "file:"+strings.NewReplacer("%", "%25", "?", "%3f", "#", "%23").Replace(name)
		if s.Shared() {
			driver, dsn = "pgx", name
		}
		expect(t, s.Close(), nil)
		db, err := sql.Open(driver, dsn)
		expect(t, err, nil)
		defer db.Close()
		_, err = db.Exec("UPDATE schema_version SET version = version + 1")
		expect(t, err, nil)
		_, err = store.Open(ctx, name)
		expect(t, err, store.ErrNewer)
	})
}

// A database that does not sync what it commits is refused.
func TestUnsafe(t *testing.T) {
	storetest.Each(t, func(t *testing.T, name string) {
		s := storetest.Open(t, name)
		if !s.Shared() {
			return
		}
		if _, err := store.Open(ctx, name+"&synchronous_commit=off"); err == nil || !strings.Contains(err.Error(), "synchronous_commit is off") {
			t.Fatal(err)
		}
	})
}

// A change whose request has ended is not made.
func TestContext(t *testing.T) {
	storetest.Each(t, func(t *testing.T, name string) {
		s := storetest.Open(t, name)
		g := create(t, s, "g")
		ended, cancel := context.WithCancel(ctx)
		cancel()
		if err := s.Append(ended, g, row(1, store.Commit, 4)); err == nil || errors.Is(err, store.ErrConflict) {
			t.Fatal(err)
		}
		if g, _ := s.Group(ctx, "g"); g.Seq != 0 {
			t.Fatal(g)
		}
		add(t, s, row(1, store.Commit, 4))
	})
}

// Many instances that start at once make the tables once.
func TestManyStart(t *testing.T) {
	storetest.Each(t, func(t *testing.T, name string) {
		var all sync.WaitGroup
		for i := 0; i < 6; i++ {
			all.Add(1)
			go func() {
				defer all.Done()
				s, err := store.Open(ctx, name)
				if err == nil {
					s.Close()
				} else if strings.HasPrefix(name, "postgres") {
					t.Error(err)
				}
			}()
		}
		all.Wait()
		create(t, storetest.Open(t, name), "g")
	})
}

// What a closed store is asked for has an error.
func TestClosed(t *testing.T) {
	storetest.Each(t, func(t *testing.T, name string) {
		s := storetest.Open(t, name)
		g := create(t, s, "g")
		expect(t, s.Close(), nil)
		if s.Append(ctx, g, row(1, store.Commit, 4)) == nil || s.Ping(ctx) == nil {
			t.Fatal("a closed store answers")
		}
	})
}
