package groups

import (
	"context"
	"crypto/sha256"
	"encoding/hex"
	"encoding/json"
	"errors"
	"fmt"
	"time"

	"mlscheckd/internal/follow"
	"mlscheckd/internal/metrics"
	"mlscheckd/internal/store"
)

// Judge answers a message for a group. It is answered as accepted only once it is stored. Outside says that the service in
// front allows senders outside the group. After an error it is unknown what came of the message, and it may be sent again.
func (s *Service) Judge(ctx context.Context, name string, message []byte, outside bool) (Answer, error) {
	if err := over(len(message), "bytes of a message", s.limits.Message); err != nil {
		return Answer{}, err
	}
	facts := s.library.Message(message)
	if facts.IsOutside() && !outside {
		return Answer{}, ErrOutside
	}
	if err := s.withinLimits(message, facts); err != nil {
		return Answer{}, err
	}
	begun := time.Now()
	digest := sha256.Sum256(message)
	g, err := s.hold(ctx, name)
	if err != nil {
		return Answer{}, err
	}
	defer s.finish(g)
	defer g.dropBroken()
	defer s.store.Announce()()
	answer, err := s.judgeUntil(ctx, g, incoming{message, digest[:], facts})
	if err == nil {
		s.metrics.Phase(metrics.Total, time.Since(begun))
	}
	return answer, err
}

// tries is how often a message is judged again because the log has grown elsewhere.
const tries = 8

// judgeUntil answers a message, which is judged again if the log has grown elsewhere.
func (s *Service) judgeUntil(ctx context.Context, g *group, m incoming) (Answer, error) {
	for try := 1; ; try++ {
		answer, err := s.judge(ctx, g, m)
		if !errors.Is(err, store.ErrConflict) {
			return answer, err
		}
		s.metrics.Conflicts.Inc()
		if try == tries {
			return answer, ErrBusy
		}
	}
}

// incoming is a message, its SHA-256 digest, and what it says of itself.
type incoming struct {
	message, digest []byte
	facts           follow.Message
}

// withinLimits returns a LimitError if a message is over one that needs no group.
func (s *Service) withinLimits(message []byte, facts follow.Message) error {
	if facts.Content == follow.ContentProposal {
		if err := over(len(message), "bytes of a proposal", s.limits.Proposal); err != nil {
			return err
		}
	}
	for _, p := range facts.Proposals {
		if err := over(p.Size, "bytes of a proposal", s.limits.Proposal); err != nil {
			return err
		}
		if p.Type == follow.ProposalContextExtensions {
			if err := over(p.Size, "bytes of a GroupContext", s.limits.Context); err != nil {
				return err
			}
		}
	}
	return nil
}

// finish lets others use the group, once its state is stored if that is due. Whoever waits for the answer does not wait for it.
func (s *Service) finish(g *group) {
	if !g.due() {
		s.release(g)
		return
	}
	s.after.Add(1)
	go func() {
		defer s.after.Done()
		defer s.release(g)
		defer func() {
			if broken := recover(); broken != nil {
				s.notKept(g, fmt.Errorf("%v", broken))
			}
		}()
		if err := s.keep(g); err != nil {
			s.notKept(g, err)
		}
	}()
}

// notKept lets a group go whose state could not be taken. It is loaded again when the next message comes.
func (s *Service) notKept(g *group, err error) {
	g.drop()
	s.log.Error("state_not_stored", err, "group", g.name)
}

// judge answers a message once. The error store.ErrConflict says that it has to be judged again.
func (s *Service) judge(ctx context.Context, g *group, m incoming) (Answer, error) {
	if g.handle == nil {
		if err := s.load(ctx, g); err != nil {
			return Answer{}, err
		}
	}
	if by, undone := g.undone[string(m.digest)]; undone {
		err := s.refresh(ctx, g)
		return Answer{Verdict: Undone, Sequence: by, Epoch: g.row.Epoch}, err
	}
	if answer, done, err := s.beyond(ctx, g, m); done || err != nil {
		return answer, err
	}
	staged, err := s.stage(g, m.message)
	switch refusal, is := err.(follow.Refusal); {
	case is:
		return s.refuse(ctx, g, m, refusal)
	case err != nil:
		g.drop()
		return Answer{}, err
	}
	return s.accept(g, m, staged)
}

// beyond answers a proposal that would be one too many in its epoch, or a commit that adds too many. One that was accepted before is
// answered as it was.
func (s *Service) beyond(ctx context.Context, g *group, m incoming) (Answer, bool, error) {
	limit := s.withinGroup(g, m.facts)
	if limit == nil {
		return Answer{}, false, nil
	}
	if err := s.refresh(ctx, g); err != nil {
		return Answer{}, false, err
	}
	if answer, found, err := s.repeated(ctx, g, m.digest); found || err != nil {
		return answer, found, err
	}
	return Answer{}, false, limit
}

// withinGroup returns a LimitError if a message of the current epoch is over a limit.
func (s *Service) withinGroup(g *group, facts follow.Message) error {
	if facts.Epoch != g.row.Epoch {
		return nil
	}
	if facts.Content == follow.ContentProposal {
		return over(g.count.pending+1, "proposals of an epoch", s.limits.Pending)
	}
	adds := 0
	for _, p := range facts.Proposals {
		if p.Type == follow.ProposalAdd {
			adds++
		}
	}
	for _, reference := range facts.References {
		if g.count.adds[string(reference)] {
			adds++
		}
	}
	return over(adds, "Adds of a commit", s.limits.Adds)
}

// stage has the signatures of a message verified, and the message judged.
func (s *Service) stage(g *group, message []byte) (follow.Staged, error) {
	begun := time.Now()
	listed, err := g.handle.Query(message)
	if err != nil {
		return follow.Staged{}, err
	}
	queried := time.Now()
	good, err := s.verified(listed)
	if err != nil {
		return follow.Staged{}, err
	}
	verified := time.Now()
	if err := g.handle.Learn(good); err != nil {
		return follow.Staged{}, err
	}
	// A query lists only what was not learnt yet. So a row has to have what came with refused messages before it too.
	g.unsaved = append(g.unsaved, good...)
	var now time.Time
	if g.row.Timed {
		now = s.now()
	}
	staged, err := g.handle.Stage(message, now)
	s.metrics.Phase(metrics.Verify, verified.Sub(queried))
	s.metrics.Phase(metrics.Judge, queried.Sub(begun)+time.Since(verified))
	return staged, err
}

// accept stores a staged message, and then applies it.
func (s *Service) accept(g *group, m incoming, staged follow.Staged) (Answer, error) {
	if err := over(int(staged.Members), "members", s.limits.Members); err != nil {
		s.discard(g)
		return Answer{}, err
	}
	answer := accepted(g.seq+1, staged)
	text, err := json.Marshal(answer)
	if err != nil {
		s.discard(g)
		return Answer{}, err
	}
	row := store.Row{Seq: g.seq + 1, Kind: store.Proposal, Digest: m.digest, Message: m.message, Receipts: joinReceipts(g.unsaved),
		Answer: string(text), Epoch: staged.Epoch, Members: staged.Members, Ended: staged.Ended, At: s.now(),
		Checker: s.library.Version()}
	if staged.Reference == nil {
		row.Kind = store.Commit
	}
	begun := time.Now()
	ctx, cancel := s.storeContext()
	defer cancel()
	if err := s.store.Append(ctx, g.row, row); errors.Is(err, store.ErrConflict) {
		// The log is not the group's: the group is brought to it, and then the message is judged again.
		s.discard(g)
		if g.handle == nil {
			return Answer{}, err
		}
		if err := s.refresh(ctx, g); !errors.Is(err, store.ErrConflict) {
			g.drop()
		}
		return Answer{}, err
	} else if err != nil {
		g.drop() // it is unknown whether the message is stored
		return Answer{}, err
	}
	s.metrics.Phase(metrics.Store, time.Since(begun))
	g.seq, g.last, g.row.Seq, g.row.History, g.unsaved = row.Seq, m.digest, row.Seq, row.After(g.row.History), nil
	if err := g.handle.Apply(); err != nil {
		g.drop() // what is stored is loaded again
	} else {
		s.note(g, m.message, staged)
	}
	s.metrics.Verdict(0, Accepted)
	return answer, nil
}

// discard takes the staged message back, or lets the handle go.
func (s *Service) discard(g *group) {
	if err := g.handle.Discard(); err != nil {
		g.drop()
	}
}

// mostUnsaved is how many receipts of refused messages a group has in memory at most.
const mostUnsaved = 1024

// refuse answers a refusal, unless the group is not as the store has it or the message was accepted before.
func (s *Service) refuse(ctx context.Context, g *group, m incoming, refusal follow.Refusal) (Answer, error) {
	if err := s.refresh(ctx, g); err != nil {
		return Answer{}, err
	}
	// A message that was accepted is of an earlier epoch, or pending, or of a group that is over.
	if n := refusal.Number; n == wrongEpoch || n == knownProposal || n == groupOver {
		if answer, found, err := s.repeated(ctx, g, m.digest); found || err != nil {
			return answer, err
		}
	}
	answer := refused(g.seq, g.row.Epoch, refusal)
	if len(g.unsaved) > mostUnsaved {
		g.drop() // it forgets what it has learnt
	}
	s.metrics.Verdict(refusal.Number, answer.Name)
	s.log.Info("refused", "group", g.name, "rule", refusal.Number, "name", answer.Name, "section", answer.Section,
		"epoch", answer.Epoch, "bytes", len(m.message), "digest", hex.EncodeToString(m.digest))
	s.store.KeepRefusal(g.row.ID, store.Refusal{At: s.now(), Rule: refusal.Number, Inner: refusal.Inner, Leaf: refusal.Leaf,
		Epoch: answer.Epoch, Digest: m.digest, Message: m.message[:min(len(m.message), shownBytes)]})
	return answer, nil
}

// shownBytes is how many bytes of a refused message are kept.
const shownBytes = 4096

func min(a, b int) int {
	if a < b {
		return a
	}
	return b
}

// repeated returns the answer to a message that was accepted before.
func (s *Service) repeated(ctx context.Context, g *group, digest []byte) (answer Answer, found bool, err error) {
	row, found, err := s.store.Find(ctx, g.row.ID, digest)
	if err != nil || !found || row.Undone != 0 {
		return answer, false, err
	}
	if err := json.Unmarshal([]byte(row.Answer), &answer); err != nil {
		return answer, false, err
	}
	answer.Repeated = true
	s.metrics.Repeats.Inc()
	return answer, true, nil
}
