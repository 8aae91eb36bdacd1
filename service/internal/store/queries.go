package store

import (
	"context"
	"database/sql"
	"fmt"
	"time"
)

// The two statements that take a place in a log. The row is added only if the first one found the expected sequence and history.
const (
	advance = `UPDATE groups SET seq = $1, history = $2, epoch = $3, members = $4, ended = $5, changed = $6
		WHERE id = $7 AND seq = $8 AND history = $9`
	insert = `INSERT INTO log (group_id, seq, kind, digest, message, receipts, answer, epoch, members, ended, at, checker)
		VALUES ($1, $2, $3, $4, $5, $6, $7, $8, $9, $10, $11, $12)`
)

// advanceAndInsert is both in one, and so in one round trip to PostgreSQL.
const advanceAndInsert = `WITH taken AS (UPDATE groups SET seq = $1, history = $2, epoch = $3, members = $4, ended = $5, changed = $6
		WHERE id = $7 AND seq = $8 AND history = $9 RETURNING id)
	INSERT INTO log (group_id, seq, kind, digest, message, receipts, answer, epoch, members, ended, at, checker)
	SELECT id, $1::bigint, $10::bigint, $11::bytea, $12::bytea, $13::bytea, $14::text, $3::bigint, $4::bigint, $5::bigint,
		$6::bigint, $15::text FROM taken`

const groupColumns = `id, name, profile, rules, timed, seq, history, epoch, members, ended, changed, confirmed`

const rowColumns = `seq, kind, digest, message, receipts, answer, epoch, members, ended, at, checker, undone`

// queries is what a database and a transaction have in common.
type queries interface {
	QueryContext(ctx context.Context, text string, args ...any) (*sql.Rows, error)
	QueryRowContext(ctx context.Context, text string, args ...any) *sql.Row
}

type scanner interface{ Scan(...any) error }

func scanGroup(row scanner) (g Group, err error) {
	var timed, epoch, ended, changed int64
	err = row.Scan(&g.ID, &g.Name, &g.Profile, &g.Rules, &timed, &g.Seq, &g.History, &epoch, &g.Members, &ended, &changed, &g.Confirmed)
	g.Timed, g.Epoch, g.Ended, g.Changed = timed != 0, uint64(epoch), ended != 0, time.UnixMilli(changed)
	if err == sql.ErrNoRows {
		err = ErrNoGroup
	}
	return g, err
}

func scanRow(row scanner) (r Row, err error) {
	var epoch, ended, at int64
	var undone sql.NullInt64
	err = row.Scan(&r.Seq, &r.Kind, &r.Digest, &r.Message, &r.Receipts, &r.Answer, &epoch, &r.Members, &ended, &at, &r.Checker,
		&undone)
	r.Epoch, r.Ended, r.At, r.Undone = uint64(epoch), ended != 0, time.UnixMilli(at), undone.Int64
	return r, err
}

// Create starts a group with its first state. If the name is taken, the error is ErrExists.
func (s *Store) Create(ctx context.Context, g Group, start Start, state State) error {
	now := g.Changed.UnixMilli()
	return s.do(ctx, func(ctx context.Context, tx *sql.Tx) error {
		var id int64
		err := tx.QueryRowContext(ctx, s.rebind(`INSERT INTO groups (name, profile, rules, timed, seq, history, epoch, members, ended, changed)
			VALUES ($1, $2, $3, $4, 0, $5, $6, $7, $8, $9) ON CONFLICT (name) DO NOTHING RETURNING id`), g.Name, int64(g.Profile),
			int64(g.Rules), boolInt(g.Timed), []byte{}, int64(g.Epoch), int64(g.Members), boolInt(g.Ended), now).Scan(&id)
		if err == sql.ErrNoRows {
			return ErrExists
		}
		if err != nil {
			return err
		}
		_, err = tx.ExecContext(ctx, s.rebind(`INSERT INTO starts (group_id, info, tree, receipts, epoch, members, at, checker)
			VALUES ($1, $2, $3, $4, $5, $6, $7, $8)`),
			id, blob(start.Info), blob(start.Tree), blob(start.Receipts), int64(g.Epoch), int64(g.Members), now, start.Checker)
		if err != nil {
			return err
		}
		_, err = tx.ExecContext(ctx, s.rebind(`INSERT INTO states (group_id, seq, state, receipts) VALUES ($1, 0, $2, $3)`),
			id, blob(state.State), blob(state.Receipts))
		return err
	})
}

// blob returns the bytes, and not nil, which would be NULL.
func blob(data []byte) []byte {
	if data == nil {
		return []byte{}
	}
	return data
}

// Append adds a row at the end of the log of a group, which must be as long as this group says and have its history, and returns
// once the row is durable. If the log is another one, or the row is not for the next place, the error is ErrConflict. After any
// other error it is unknown whether the row was added.
func (s *Store) Append(ctx context.Context, g Group, r Row) error {
	now, epoch, members, ended := r.At.UnixMilli(), int64(r.Epoch), int64(r.Members), boolInt(r.Ended)
	place := []any{r.Seq, r.After(g.History), epoch, members, ended, now, g.ID, r.Seq - 1, blob(g.History)}
	if s.writer == nil {
		result, err := s.db.ExecContext(ctx, advanceAndInsert, append(place, int64(r.Kind), blob(r.Digest), blob(r.Message),
			blob(r.Receipts), r.Answer, r.Checker)...)
		return changed(result, err)
	}
	return s.do(ctx, func(ctx context.Context, tx *sql.Tx) error {
		result, err := tx.StmtContext(ctx, s.writer.advance).ExecContext(ctx, place...)
		if err := changed(result, err); err != nil {
			return err
		}
		_, err = tx.StmtContext(ctx, s.writer.insert).ExecContext(ctx, g.ID, r.Seq, int64(r.Kind), blob(r.Digest),
			blob(r.Message), blob(r.Receipts), r.Answer, epoch, members, ended, now, r.Checker)
		return err
	})
}

// changed returns ErrConflict if a statement has found no row.
func changed(result sql.Result, err error) error {
	if err != nil {
		return err
	}
	count, err := result.RowsAffected()
	if err == nil && count == 0 {
		err = ErrConflict
	}
	return err
}

// Undo undoes the accepted commit with this sequence, and all rows after it, by a row at the end of the log, and drops the
// states after it. The group must be as it is in the store, otherwise the error is ErrConflict. If a member is known to have
// processed the commit or a later one, the error is ErrConfirmed.
func (s *Store) Undo(ctx context.Context, g Group, commit int64, at time.Time) error {
	return s.do(ctx, func(ctx context.Context, tx *sql.Tx) error {
		var epoch, members, ended int64
		var kind Kind
		var undone sql.NullInt64
		err := tx.QueryRowContext(ctx, s.rebind(`SELECT kind, undone FROM log WHERE group_id = $1 AND seq = $2`), g.ID, commit).
			Scan(&kind, &undone)
		if err == sql.ErrNoRows || err == nil && (kind != Commit || undone.Valid) {
			return ErrNoCommit
		}
		if err != nil {
			return err
		}
		err = tx.QueryRowContext(ctx, s.rebind(`SELECT epoch, members, ended FROM log WHERE group_id = $1 AND seq < $2 AND kind <> 3
			AND undone IS NULL ORDER BY seq DESC LIMIT 1`), g.ID, commit).Scan(&epoch, &members, &ended)
		if err == sql.ErrNoRows {
			err = tx.QueryRowContext(ctx, s.rebind(`SELECT epoch, members FROM starts WHERE group_id = $1`), g.ID).
				Scan(&epoch, &members)
		}
		if err != nil {
			return err
		}
		row := Row{Kind: Undo, Answer: fmt.Sprintf(`{"undoes":%d}`, commit)}
		result, err := tx.ExecContext(ctx, s.rebind(advance+` AND confirmed < $10`), g.Seq+1, row.After(g.History), epoch, members,
			ended, at.UnixMilli(), g.ID, g.Seq, blob(g.History), commit)
		if err := changed(result, err); err == ErrConflict {
			return s.whyNot(ctx, tx, g.ID, commit)
		} else if err != nil {
			return err
		}
		if _, err := tx.ExecContext(ctx, s.rebind(`UPDATE log SET undone = $1 WHERE group_id = $2 AND seq >= $3 AND undone IS NULL
			AND kind <> 3`), g.Seq+1, g.ID, commit); err != nil {
			return err
		}
		if _, err := tx.ExecContext(ctx, s.rebind(`DELETE FROM states WHERE group_id = $1 AND seq >= $2`), g.ID, commit); err != nil {
			return err
		}
		_, err = tx.ExecContext(ctx, s.rebind(insert), g.ID, g.Seq+1, int64(Undo), []byte{}, []byte{}, []byte{}, row.Answer, epoch,
			members, ended, at.UnixMilli(), "")
		return err
	})
}

// whyNot returns why a commit is not undone.
func (s *Store) whyNot(ctx context.Context, tx *sql.Tx, group, commit int64) error {
	var confirmed int64
	err := tx.QueryRowContext(ctx, s.rebind(`SELECT confirmed FROM groups WHERE id = $1`), group).Scan(&confirmed)
	if err == nil && confirmed >= commit {
		return ErrConfirmed
	}
	if err == nil {
		return ErrConflict
	}
	return err
}

// Confirm notes that a member has processed the commit that began this epoch. From then on neither it nor a commit before it is
// undone. If no accepted commit began the epoch, nor the group's start, the error is ErrNoCommit.
func (s *Store) Confirm(ctx context.Context, name string, epoch uint64) error {
	return s.do(ctx, func(ctx context.Context, tx *sql.Tx) error {
		// The group's row is locked first, so that no undo comes between the question and the answer.
		var id int64
		err := tx.QueryRowContext(ctx, s.rebind(`UPDATE groups SET confirmed = confirmed WHERE name = $1 RETURNING id`), name).Scan(&id)
		if err == sql.ErrNoRows {
			return ErrNoGroup
		}
		if err != nil {
			return err
		}
		var commit int64
		err = tx.QueryRowContext(ctx, s.rebind(`SELECT seq FROM log WHERE group_id = $1 AND epoch = $2 AND kind = 2
			AND undone IS NULL`), id, int64(epoch)).Scan(&commit)
		if err == sql.ErrNoRows {
			var start int64
			err := tx.QueryRowContext(ctx, s.rebind(`SELECT epoch FROM starts WHERE group_id = $1`), id).Scan(&start)
			if err == nil && start != int64(epoch) {
				err = ErrNoCommit
			}
			return err
		}
		if err != nil {
			return err
		}
		_, err = tx.ExecContext(ctx, s.rebind(`UPDATE groups SET confirmed = $1 WHERE id = $2 AND confirmed < $1`), commit, id)
		return err
	})
}

// Group returns the group of this name.
func (s *Store) Group(ctx context.Context, name string) (Group, error) {
	return s.group(ctx, s.db, name)
}

func (s *Store) group(ctx context.Context, q queries, name string) (Group, error) {
	return scanGroup(q.QueryRowContext(ctx, s.rebind(`SELECT `+groupColumns+` FROM groups WHERE name = $1`), name))
}

// Groups returns the groups whose names come after one, in the order of their names' bytes, at most limit.
func (s *Store) Groups(ctx context.Context, after string, limit int) (list []Group, err error) {
	rows, err := s.db.QueryContext(ctx, s.rebind(`SELECT `+groupColumns+` FROM groups WHERE name > $1 ORDER BY name LIMIT $2`), after, limit)
	if err != nil {
		return nil, err
	}
	defer rows.Close()
	for rows.Next() {
		g, err := scanGroup(rows)
		if err != nil {
			return nil, err
		}
		list = append(list, g)
	}
	return list, rows.Err()
}

// Start returns what a group was started from.
func (s *Store) Start(ctx context.Context, group int64) (start Start, err error) {
	var epoch int64
	err = s.db.QueryRowContext(ctx, s.rebind(`SELECT info, tree, receipts, epoch, members, checker FROM starts WHERE group_id = $1`), group).
		Scan(&start.Info, &start.Tree, &start.Receipts, &epoch, &start.Members, &start.Checker)
	start.Epoch = uint64(epoch)
	return start, err
}

// Load returns what a group is resumed from, all as of one moment: otherwise an undo of another instance could come between two
// of the queries.
func (s *Store) Load(ctx context.Context, name string) (l Loaded, err error) {
	isolation := sql.LevelDefault
	if s.shared {
		isolation = sql.LevelRepeatableRead
	}
	tx, err := s.db.BeginTx(ctx, &sql.TxOptions{Isolation: isolation, ReadOnly: true})
	if err != nil {
		return l, err
	}
	defer tx.Rollback()
	if l.Group, err = s.group(ctx, tx, name); err != nil {
		return l, err
	}
	err = tx.QueryRowContext(ctx, s.rebind(`SELECT seq, state, receipts FROM states WHERE group_id = $1 ORDER BY seq DESC LIMIT 1`),
		l.Group.ID).Scan(&l.State.Seq, &l.State.State, &l.State.Receipts)
	if err != nil {
		return l, fmt.Errorf("the group %q has no state: %w", name, err)
	}
	if l.Rows, err = s.rows(ctx, tx, l.Group.ID, l.State.Seq, -1); err != nil {
		return l, err
	}
	l.Undone, err = s.undone(ctx, tx, l.Group.ID)
	return l, err
}

// Rows returns the rows of a log after a sequence, those that were undone too, at most limit.
func (s *Store) Rows(ctx context.Context, group, after int64, limit int) ([]Row, error) {
	return s.rows(ctx, s.db, group, after, limit)
}

func (s *Store) rows(ctx context.Context, q queries, group, after int64, limit int) (list []Row, err error) {
	text, args := `SELECT `+rowColumns+` FROM log WHERE group_id = $1 AND seq > $2 ORDER BY seq`, []any{group, after}
	if limit >= 0 {
		text, args = text+` LIMIT $3`, append(args, limit)
	}
	rows, err := q.QueryContext(ctx, s.rebind(text), args...)
	if err != nil {
		return nil, err
	}
	defer rows.Close()
	for rows.Next() {
		r, err := scanRow(rows)
		if err != nil {
			return nil, err
		}
		list = append(list, r)
	}
	return list, rows.Err()
}

// undone returns the digests of the commits that were undone, with the sequences of the undos.
func (s *Store) undone(ctx context.Context, q queries, group int64) (map[string]int64, error) {
	rows, err := q.QueryContext(ctx, s.rebind(`SELECT digest, undone FROM log WHERE group_id = $1 AND undone IS NOT NULL AND kind = 2`), group)
	if err != nil {
		return nil, err
	}
	defer rows.Close()
	found := map[string]int64{}
	for rows.Next() {
		var digest []byte
		var by int64
		if err := rows.Scan(&digest, &by); err != nil {
			return nil, err
		}
		found[string(digest)] = by
	}
	return found, rows.Err()
}

// Find returns the last row of a message with this digest, and false if there is none.
func (s *Store) Find(ctx context.Context, group int64, digest []byte) (Row, bool, error) {
	r, err := scanRow(s.db.QueryRowContext(ctx, s.rebind(`SELECT `+rowColumns+` FROM log WHERE group_id = $1 AND digest = $2 AND kind <> 3
		ORDER BY seq DESC LIMIT 1`), group, digest))
	if err == sql.ErrNoRows {
		return r, false, nil
	}
	return r, err == nil, err
}

// KeepState stores a state that was taken after the row with this digest, and drops those between the first one and the last two.
// If the log has another row there, or the row was undone, the state is not stored. Nobody waits for it: without it the next load
// takes longer. The error of a state that could not be stored is passed to failed.
func (s *Store) KeepState(group int64, digest []byte, state State, failed func(error)) {
	s.doLater(func(ctx context.Context, tx *sql.Tx) error { return s.keepState(ctx, tx, group, digest, state) }, failed)
}

func (s *Store) keepState(ctx context.Context, tx *sql.Tx, group int64, digest []byte, state State) error {
	// The group's row is locked first, so that no undo comes between the question and the answer.
	if _, err := tx.ExecContext(ctx, s.rebind(`UPDATE groups SET changed = changed WHERE id = $1`), group); err != nil {
		return err
	}
	var fits bool
	err := tx.QueryRowContext(ctx, s.rebind(`SELECT EXISTS (SELECT 1 FROM log WHERE group_id = $1 AND seq = $2 AND digest = $3
		AND undone IS NULL) AND NOT EXISTS (SELECT 1 FROM states WHERE group_id = $1 AND seq >= $2)`), group, state.Seq,
		blob(digest)).Scan(&fits)
	if err != nil || !fits {
		return err
	}
	_, err = tx.ExecContext(ctx, s.rebind(`INSERT INTO states (group_id, seq, state, receipts) VALUES ($1, $2, $3, $4)`),
		group, state.Seq, blob(state.State), blob(state.Receipts))
	if err != nil {
		return err
	}
	_, err = tx.ExecContext(ctx, s.rebind(`DELETE FROM states WHERE group_id = $1 AND seq > 0 AND seq NOT IN
		(SELECT seq FROM states WHERE group_id = $1 ORDER BY seq DESC LIMIT 2)`), group)
	return err
}

// KeptRefusals is how many refused messages of a group the store has at most.
const KeptRefusals = 100

// KeepRefusal keeps a refused message for a person to read, in place of the oldest one. Nobody waits for it, and it may be lost.
func (s *Store) KeepRefusal(group int64, r Refusal) {
	s.doLater(func(ctx context.Context, tx *sql.Tx) error {
		_, err := tx.ExecContext(ctx, s.rebind(`INSERT INTO refusals (group_id, at, rule, inner_rule, leaf, epoch, digest, message)
			VALUES ($1, $2, $3, $4, $5, $6, $7, $8)`), group, r.At.UnixMilli(), int64(r.Rule), int64(r.Inner), int64(r.Leaf),
			int64(r.Epoch), blob(r.Digest), blob(r.Message))
		if err != nil {
			return err
		}
		_, err = tx.ExecContext(ctx, s.rebind(`DELETE FROM refusals WHERE group_id = $1 AND id <=
			(SELECT id FROM refusals WHERE group_id = $1 ORDER BY id DESC LIMIT 1 OFFSET $2)`), group, KeptRefusals)
		return err
	}, func(error) {})
}

// Refusals returns the last refused messages of a group, the last one first, at most limit.
func (s *Store) Refusals(ctx context.Context, group int64, limit int) (list []Refusal, err error) {
	rows, err := s.db.QueryContext(ctx, s.rebind(`SELECT at, rule, inner_rule, leaf, epoch, digest, message FROM refusals
		WHERE group_id = $1 ORDER BY id DESC LIMIT $2`), group, limit)
	if err != nil {
		return nil, err
	}
	defer rows.Close()
	for rows.Next() {
		var r Refusal
		var at, epoch int64
		if err := rows.Scan(&at, &r.Rule, &r.Inner, &r.Leaf, &epoch, &r.Digest, &r.Message); err != nil {
			return nil, err
		}
		r.At, r.Epoch = time.UnixMilli(at), uint64(epoch)
		list = append(list, r)
	}
	return list, rows.Err()
}
