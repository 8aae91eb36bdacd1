// Package follow is what the service asks of the library that follows groups. Package library implements it over bindings/go,
// package followtest for tests. Everything that decides on a message is behind it.
package follow

import (
	"errors"
	"fmt"
	"time"
)

// A Receipt names a signature that is good (include/mls_check.h).
type Receipt = [32]byte

// A Signature has to be verified: whether it is good for Content under the public key Key in the cipher suite Suite
// (RFC 9420, 5.1.2).
type Signature struct {
	Receipt                 Receipt
	Suite                   uint16
	Key, Content, Signature []byte
}

// A Profile says in which handshakes a group is followed.
type Profile uint32

const (
	Members Profile = 1 // Add, Update, Remove, GroupContextExtensions and Commit of members
	Full    Profile = 2 // also PreSharedKey and ReInit, senders outside the group and external commits
)

// Rules is a set of strict rules: rule n, from 40 to 52, is bit n - 40.
type Rules uint16

const (
	Plain  Rules = 0
	Strict Rules = 0x1fff
)

// Rule returns the set of the strict rule with this number alone, or the empty set if the number is none of 40 to 52.
func Rule(number int) Rules {
	if number < 40 || number > 52 {
		return Plain
	}
	return 1 << (number - 40)
}

// Facts are what a group is after a message, or as it is now.
type Facts struct {
	Epoch     uint64
	Members   uint32
	Ended     bool   // a commit with a ReInit was accepted (11.2)
	TreeHash  []byte // 7.8
	Confirmed []byte // the confirmed transcript hash (8.2)
}

// Staged is an accepted message, and what the group is after it.
type Staged struct {
	Reference []byte // of a proposal (5.2); nil of a commit
	Facts
}

// A Member is a non-blank leaf of the tree.
type Member struct {
	Leaf         uint32
	Credential   Credential
	SignatureKey []byte
}

// The types of credentials (5.3).
const (
	CredentialBasic = 1
	CredentialX509  = 2
)

// A Credential is that of a leaf node (5.3). Identity is what a basic credential has, Certificates what an x509 one has.
type Credential struct {
	Type         uint16
	Identity     []byte
	Certificates [][]byte
}

// A Node is a node of the tree, by its node index (Appendix C). Member is nil if it is no leaf or blank.
type Node struct {
	Blank    bool
	Key      []byte   // the encryption key
	Unmerged []uint32 // of a parent
	Member   *Member
}

// The kinds of senders (6).
const (
	SenderMember            = 1
	SenderExternal          = 2
	SenderNewMemberProposal = 3
	SenderNewMemberCommit   = 4
)

// The types of contents (6), and of the proposals that limits speak of (12.1).
const (
	ContentApplication = 1
	ContentProposal    = 2
	ContentCommit      = 3

	ProposalAdd               = 1
	ProposalContextExtensions = 7
)

// A Message is what a PublicMessage says of itself. Nothing of it is authenticated. Of bytes that are none it has what could be
// read at their front.
type Message struct {
	GroupID     []byte
	Epoch       uint64
	Sender      uint8
	SenderIndex uint32 // of a member or an external sender
	Content     uint8
	Proposals   []Proposal // the proposal, or those that a commit has by value
	References  [][]byte   // the proposals that a commit names
}

// IsOutside says whether the sender is outside the group.
func (m Message) IsOutside() bool {
	return m.Sender >= SenderExternal && m.Sender <= SenderNewMemberCommit
}

// An Info is what a GroupInfo says of itself (12.4.3).
type Info struct {
	GroupID     []byte
	Epoch       uint64
	ContextSize int // bytes of the GroupContext
}

// A Proposal is one by value: its type, and how many bytes it has.
type Proposal struct {
	Type uint16
	Size int
}

// Refusal says why a message is refused (docs/FORMATS.md). Inner and Leaf are those of 25, otherwise 0.
type Refusal struct {
	Number, Inner, Leaf uint32
}

func (r Refusal) Error() string { return fmt.Sprintf("refused %d %s", r.Number, RuleOf(r.Number).Name) }

// Refused says why a group does not start, or is not resumed, by the numbers of include/mls_check.h.
type Refused struct {
	Number, Inner uint32
	Place         uint64
}

func (r Refused) Error() string { return fmt.Sprintf("refused %d %d %d", r.Number, r.Inner, r.Place) }

// ErrGone says that a group cannot go back to where it was. It is to be closed, and resumed from what was stored.
var ErrGone = errors.New("the group has to be resumed")

// A Library begins groups, and reads messages without one. Its calls may be made at any time from any goroutine.
type Library interface {
	// StartQuery returns the signatures of a start. A tree of length 0 is the one in the GroupInfo. The error of inputs
	// from which no group starts is a Refused.
	StartQuery(info, tree []byte) ([]Signature, error)

	// Start starts a group by the receipts of good signatures. The error of inputs from which none starts is a Refused.
	Start(profile Profile, rules Rules, info, tree []byte, good []Receipt) (Group, error)

	// ResumeQuery returns the signatures of a stored state that have no receipt.
	ResumeQuery(state []byte, good []Receipt) ([]Signature, error)

	// Resume resumes a group from a stored state by the receipts of good signatures.
	Resume(profile Profile, state []byte, good []Receipt) (Group, error)

	// Message returns what a PublicMessage says of itself. If the library reads the bytes as a message, the result has its sender.
	Message(message []byte) Message

	// Info returns what a GroupInfo says of itself, and false if the bytes are none.
	Info(info []byte) (Info, bool)

	// Version says which library judges, so that a stored row can say by which it was accepted.
	Version() string
}

// A Group is followed. One call at a time is made, from any goroutine. A call whose error is no Refusal may have left the
// group as no call should: it is to be closed.
type Group interface {
	// Query returns the signatures of a message that have no receipt yet.
	Query(message []byte) ([]Signature, error)

	// Learn learns that the signatures with these receipts are good.
	Learn(good []Receipt) error

	// Stage judges a message, and holds what an accepted one leads to until Apply or Discard: no other call is made
	// before one of them. Lifetimes are checked at the time now, and not if it is the zero time. The error of a refused
	// message is a Refusal, and nothing has changed then.
	Stage(message []byte, now time.Time) (Staged, error)

	// Apply makes the group what the staged message leads to.
	Apply() error

	// Discard leaves the group as it was before the staged message. After the error ErrGone it is to be closed.
	Discard() error

	// Undo takes the commit back that was applied last, if no message was applied since. After the error ErrGone the group
	// is to be closed.
	Undo() error

	// Forget forgets the receipts that the state does not need.
	Forget() error

	// State returns the state, which docs/FORMATS.md describes.
	State() ([]byte, error)

	// Facts returns what the group is now.
	Facts() (Facts, error)

	// Tree returns the ratchet tree (12.4.3.3).
	Tree() ([]byte, error)

	// Nodes returns the nodes of the tree, by node index.
	Nodes() ([]Node, error)

	// Size returns about how many bytes of memory the group holds.
	Size() int64

	// Close frees what the group holds. After it only Close may be called.
	Close()
}
