package groups

import (
	"encoding/hex"

	"mlscheckd/internal/follow"
)

// The verdicts.
const (
	Accepted = "accepted"
	Refused  = "refused"
	Undone   = "undone"
)

// An Answer is what a caller is told of a message.
type Answer struct {
	Verdict  string `json:"verdict"`
	Repeated bool   `json:"repeated,omitempty"` // the message was accepted before
	Sequence int64  `json:"sequence"`           // of an accepted message, of the undo of one that was undone, otherwise the last one
	Epoch    uint64 `json:"epoch"`              // after the message

	// Of an accepted message.
	Kind      string `json:"kind,omitempty"`
	Reference string `json:"reference,omitempty"`
	Members   uint32 `json:"members,omitempty"`
	TreeHash  string `json:"tree_hash,omitempty"`
	Confirmed string `json:"confirmed_transcript_hash,omitempty"`
	Ended     bool   `json:"ended,omitempty"`

	// Of a refused message.
	Rule       uint32  `json:"rule,omitempty"`
	Name       string  `json:"name,omitempty"`
	Words      string  `json:"words,omitempty"`
	Section    string  `json:"section,omitempty"`
	MemberRule uint32  `json:"member_rule,omitempty"`
	Leaf       *uint32 `json:"leaf,omitempty"`
}

func accepted(sequence int64, staged follow.Staged) Answer {
	a := Answer{Verdict: Accepted, Sequence: sequence, Epoch: staged.Epoch, Members: staged.Members, Ended: staged.Ended}
	if staged.Reference != nil {
		a.Kind, a.Reference = "proposal", hex.EncodeToString(staged.Reference)
		return a
	}
	a.Kind = "commit"
	a.TreeHash, a.Confirmed = hex.EncodeToString(staged.TreeHash), hex.EncodeToString(staged.Confirmed)
	return a
}

func refused(sequence int64, epoch uint64, r follow.Refusal) Answer {
	text := follow.RuleOf(r.Number)
	a := Answer{Verdict: Refused, Sequence: sequence, Epoch: epoch, Rule: r.Number, Name: text.Name, Words: text.Words,
		Section: text.Section}
	if r.Number == memberRule {
		a.MemberRule, a.Leaf = r.Inner, &r.Leaf
	}
	return a
}

// The numbers of rules that the service has to know (docs/FORMATS.md).
const (
	wrongEpoch    = 4
	knownProposal = 8
	memberRule    = 25
	groupOver     = 28
)
