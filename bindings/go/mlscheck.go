// Package mlscheck follows MLS groups (RFC 9420) from outside, by the proved library libmls_check, which tools/library
// makes.
//
// A service starts a Follower from a GroupInfo. For each message it calls Query, verifies the signatures that are listed,
// calls Learn with the receipts of the good ones, and then Judge or, with a time, JudgeAt. A service should start by StartBy
// with Strict.
//
// The library is proved; this package is not. It meets the conditions of include/mls_check.h if a Follower is
// used by one goroutine at a time.
package mlscheck

/*
#cgo CFLAGS: -I${SRCDIR}/../../include
#cgo LDFLAGS: -L${SRCDIR}/../../build -l:libmls_check.a
#include "mls_check.h"
*/
import "C"

import (
	"encoding/binary"
	"errors"
	"fmt"
	"time"
	"unsafe"
)

// A Signature has to be verified: whether it is good for Content under the public key Key in the cipher suite Suite (5.1.2).
type Signature struct {
	Receipt                 [32]byte
	Suite                   uint16
	Key, Content, Signature []byte
}

// Refused says why a call on a group's inputs has no result. If Number is 9 of a start or a tree, or 10 of MakeStrict or a
// resumption, a strict rule is not met: Inner is its number, and Place the node index, or 2^64 - 1 if it is no node that does
// not meet it. If Number is 11 of MakeStrict or a resumption, Place is the number of the pending proposal that does not meet
// one, from 0 on. If Number is 9 of a resumption, Place is the number of the pending proposal that is not valid or has no
// receipt, and if it is 12, that of the KeyPackageRef of the last commit that is not valid.
type Refused struct {
	Number, Inner uint32
	Place         uint64
}

func (r Refused) Error() string { return fmt.Sprintf("refused %d %d %d", r.Number, r.Inner, r.Place) }

// Accepted says what an accepted message is: a proposal with its reference (5.2), or a commit with the epoch that it begins.
type Accepted struct {
	Reference []byte
	Epoch     uint64
}

// Refusal says why a message is refused. Inner and Leaf are those of 25, otherwise 0.
type Refusal struct {
	Number, Inner, Leaf uint32
}

func (r Refusal) Error() string { return fmt.Sprintf("refused %d %s", r.Number, r.Name()) }

// Name returns the name of the rule, as mlscheck prints it.
func (r Refusal) Name() string { return C.GoString(C.mls_refusal_name(C.uint32_t(r.Number))) }

// Fault says that the library could not do what it was to do, as when memory runs out.
type Fault uint32

func (f Fault) Error() string { return fmt.Sprintf("fault %d", uint32(f)) }

var noBytes [1]byte

// at returns a pointer that is not nil, also if there are no bytes.
func at(data []byte) *C.uint8_t {
	if len(data) == 0 {
		return (*C.uint8_t)(unsafe.Pointer(&noBytes[0]))
	}
	return (*C.uint8_t)(unsafe.Pointer(&data[0]))
}

func size(data []byte) C.size_t { return C.size_t(len(data)) }

func joined(receipts [][32]byte) []byte {
	all := make([]byte, 0, 32*len(receipts))
	for _, receipt := range receipts {
		all = append(all, receipt[:]...)
	}
	return all
}

// filled returns what call writes into a buffer. It is called again with a longer one if the first is too small.
func filled(call func(buffer []byte, needed *C.size_t) uint32) ([]byte, error) {
	buffer := make([]byte, 256)
	for {
		var needed C.size_t
		switch number := call(buffer, &needed); number {
		case 0:
			return buffer[:needed], nil
		case C.MLS_BUFFER_TOO_SMALL:
			buffer = make([]byte, needed)
		default:
			return nil, Fault(number)
		}
	}
}

// filledPair returns what call writes into two buffers. It is called again with longer ones if one is too small.
func filledPair(call func(one []byte, oneNeeded *C.size_t, two []byte, twoNeeded *C.size_t) uint32) (a, b []byte, err error) {
	one, two := make([]byte, 256), make([]byte, 256)
	for {
		var oneNeeded, twoNeeded C.size_t
		switch number := call(one, &oneNeeded, two, &twoNeeded); number {
		case 0:
			return one[:oneNeeded], two[:twoNeeded], nil
		case C.MLS_BUFFER_TOO_SMALL:
			one, two = longer(one, oneNeeded), longer(two, twoNeeded)
		default:
			return nil, nil, Fault(number)
		}
	}
}

// longer returns a buffer that has as many bytes as are needed.
func longer(buffer []byte, needed C.size_t) []byte {
	if C.size_t(len(buffer)) < needed {
		return make([]byte, needed)
	}
	return buffer
}

func refused(verdict C.mls_verdict) error {
	if verdict.number == 0 {
		return nil
	}
	return Refused{uint32(verdict.number), uint32(verdict.inner), uint64(verdict.place)}
}

func filledOrRefused(call func(buffer []byte, needed *C.size_t) C.mls_verdict) ([]byte, error) {
	var verdict C.mls_verdict
	data, err := filled(func(buffer []byte, needed *C.size_t) uint32 {
		verdict = call(buffer, needed)
		return uint32(verdict.number)
	})
	if err != nil {
		return nil, refused(verdict)
	}
	return data, nil
}

// TakeVector returns the body of the vector (2.1.2) at the front, and what follows it.
func TakeVector(data []byte) (body, rest []byte) {
	size := 1 << (data[0] >> 6)
	count := int(data[0] & 0x3f)
	for _, b := range data[1:size] {
		count = count<<8 | int(b)
	}
	return data[size : size+count], data[size+count:]
}

func signatures(records []byte) []Signature {
	var list []Signature
	for len(records) > 0 {
		var body []byte
		body, records = TakeVector(records)
		wanted := Signature{Suite: binary.BigEndian.Uint16(body[32:34])}
		copy(wanted.Receipt[:], body)
		wanted.Key, body = TakeVector(body[34:])
		wanted.Content, body = TakeVector(body)
		wanted.Signature, _ = TakeVector(body)
		list = append(list, wanted)
	}
	return list
}

// ValidateTree checks a ratchet tree against a GroupContext (7.3, 7.9.2, 12.4.3.1), and returns its tree hash.
func ValidateTree(context, tree []byte, receipts [][32]byte) ([]byte, error) {
	good := joined(receipts)
	return filledOrRefused(func(hash []byte, needed *C.size_t) C.mls_verdict {
		return C.mls_validate_tree(at(context), size(context), at(tree), size(tree), at(good), size(good), at(hash),
			size(hash), needed)
	})
}

// Rules is a set of strict rules (docs/FORMATS.md): rule n, from 40 to 52, is bit n - 40. Strict &^ Rule(47) is all but 47.
type Rules uint16

const (
	// Plain has no strict rule.
	Plain Rules = C.MLS_RULES_PLAIN
	// Strict has all of them, 40 to 52.
	Strict Rules = C.MLS_RULES_STRICT
)

// Rule returns the set of the strict rule with this number alone. It panics if the number is none of 40 to 52.
func Rule(number int) Rules {
	if number < 40 || number > 52 {
		panic(fmt.Sprintf("mlscheck: %d is no strict rule", number))
	}
	return 1 << (number - 40)
}

// ValidateTreeStrict checks a ratchet tree as ValidateTree does, and that the GroupContext and the tree meet these strict
// rules.
func ValidateTreeStrict(context, tree []byte, receipts [][32]byte, rules Rules) ([]byte, error) {
	good := joined(receipts)
	return filledOrRefused(func(hash []byte, needed *C.size_t) C.mls_verdict {
		return C.mls_validate_tree_strict(at(context), size(context), at(tree), size(tree), at(good), size(good),
			C.uint16_t(rules), at(hash), size(hash), needed)
	})
}

// StartQuery returns the signatures of a start that have no receipt. A nil tree is the one in the GroupInfo. Strict rules
// are not checked here.
func StartQuery(info, tree []byte, receipts [][32]byte) ([]Signature, error) {
	good := joined(receipts)
	records, err := filledOrRefused(func(buffer []byte, needed *C.size_t) C.mls_verdict {
		return C.mls_start_query(at(info), size(info), at(tree), size(tree), at(good), size(good), at(buffer),
			size(buffer), needed)
	})
	return signatures(records), err
}

// ResumeQuery returns the signatures of a resumption from a state that have no receipt: those of the leaf nodes and of the
// pending proposals. The state names the profile and the strict rules.
func ResumeQuery(state []byte, receipts [][32]byte) ([]Signature, error) {
	good := joined(receipts)
	records, err := filledOrRefused(func(buffer []byte, needed *C.size_t) C.mls_verdict {
		return C.mls_resume_query(at(state), size(state), at(good), size(good), at(buffer), size(buffer), needed)
	})
	return signatures(records), err
}

// Counts says how many proposals of each type a message has, and how many references to proposals (12.1, 12.4).
type Counts struct {
	Adds, Updates, Removes, PSKs, ReInits, ExternalInits, GroupContextExtensions, References uint64
}

// Facts is what a message says of itself, without a group. The numbers are those of mls_check.h (6). A number that the message
// does not have is 0, and bytes that it does not have are nil.
type Facts struct {
	// WireFormat is 1 of a PublicMessage, 2 of a PrivateMessage, 3 of a Welcome, 4 of a GroupInfo, 5 of a KeyPackage.
	WireFormat uint32
	// GroupID and Epoch are those of a PublicMessage, a PrivateMessage and a GroupInfo.
	GroupID []byte
	Epoch   uint64
	// ContentType is 1 of application data, 2 of a proposal, 3 of a commit, in a PublicMessage or a PrivateMessage.
	ContentType uint32
	// SenderType is 1 of a member, 2 of an external sender, 3 of a new_member_proposal, 4 of a new_member_commit, in a
	// PublicMessage. SenderIndex is the leaf index of a member, or the index of an external sender.
	SenderType, SenderIndex uint32
	// Proposals are those of a PublicMessage.
	Proposals Counts
	// SignatureKey is that of a KeyPackage, or of a sender that joins (6.1).
	SignatureKey []byte
}

// MessageFacts returns the facts of a message that do not depend on a group (6, 6.1, 12.1, 12.4). Nothing is checked: each fact
// is what the message says of itself. If the bytes are no message, the error is the Refusal 1.
func MessageFacts(message []byte) (Facts, error) {
	var found C.mls_facts
	id, key, err := filledPair(func(id []byte, idNeeded *C.size_t, key []byte, keyNeeded *C.size_t) uint32 {
		return uint32(C.mls_message_facts(at(message), size(message), &found, at(id), size(id), idNeeded, at(key), size(key),
			keyNeeded))
	})
	if errors.Is(err, Fault(C.MLS_REFUSED_MALFORMED)) {
		return Facts{}, Refusal{Number: C.MLS_REFUSED_MALFORMED}
	}
	if err != nil {
		return Facts{}, err
	}
	if found.has_group == 0 {
		id = nil
	}
	if found.has_signature_key == 0 {
		key = nil
	}
	return Facts{
		WireFormat: uint32(found.wire_format), GroupID: id, Epoch: uint64(found.epoch), ContentType: uint32(found.content_type),
		SenderType: uint32(found.sender_type), SenderIndex: uint32(found.sender_index),
		Proposals: Counts{uint64(found.adds), uint64(found.updates), uint64(found.removes), uint64(found.psks),
			uint64(found.reinits), uint64(found.external_inits), uint64(found.group_context_extensions),
			uint64(found.references)},
		SignatureKey: key,
	}, nil
}

// A Profile says in which handshakes a group is followed.
type Profile uint32

const (
	// Members: Add, Update, Remove, GroupContextExtensions and Commit of members.
	Members Profile = C.MLS_PROFILE_MEMBERS
	// Full: also PreSharedKey and ReInit, proposals from outside and external commits (12.1.8, 12.4.3.2).
	Full Profile = C.MLS_PROFILE_FULL
)

// A Follower follows a group in a profile, and with a set of strict rules.
type Follower struct {
	handle C.mls_follower
}

func begun(f *Follower, verdict C.mls_verdict) (*Follower, error) {
	if err := refused(verdict); err != nil {
		return nil, err
	}
	return f, nil
}

// Start starts a follower of the handshakes of members: StartIn with Members.
func Start(info, tree []byte, receipts [][32]byte) (*Follower, error) {
	return StartIn(Members, info, tree, receipts)
}

// StartIn starts a follower with this profile from a GroupInfo (12.4.3) and a tree, by these receipts. It has no strict
// rules. Close frees it.
func StartIn(profile Profile, info, tree []byte, receipts [][32]byte) (*Follower, error) {
	f, good := new(Follower), joined(receipts)
	return begun(f, C.mls_follower_start(at(info), size(info), at(tree), size(tree), at(good), size(good),
		C.uint32_t(profile), &f.handle))
}

// StartBy starts a follower as StartIn does, with these strict rules, which a service should have: Strict. Close frees it.
func StartBy(rules Rules, profile Profile, info, tree []byte, receipts [][32]byte) (*Follower, error) {
	f, good := new(Follower), joined(receipts)
	return begun(f, C.mls_follower_start_by(at(info), size(info), at(tree), size(tree), at(good), size(good),
		C.uint32_t(profile), C.uint16_t(rules), &f.handle))
}

// Resume resumes a follower of the handshakes of members: ResumeIn with Members.
func Resume(state []byte, receipts [][32]byte) (*Follower, error) {
	return ResumeIn(Members, state, receipts)
}

// ResumeIn resumes a follower from a state of this profile, by these receipts, with the strict rules of the state. Close
// frees it.
func ResumeIn(profile Profile, state []byte, receipts [][32]byte) (*Follower, error) {
	f, good := new(Follower), joined(receipts)
	return begun(f, C.mls_follower_resume(at(state), size(state), at(good), size(good), C.uint32_t(profile), &f.handle))
}

// Close frees the follower.
func (f *Follower) Close() { C.mls_follower_free(&f.handle) }

// Epoch returns the epoch (8.1).
func (f *Follower) Epoch() uint64 {
	var epoch C.uint64_t
	C.mls_follower_epoch(&f.handle, &epoch)
	return uint64(epoch)
}

// Members returns the number of members.
func (f *Follower) Members() uint32 {
	var members C.uint32_t
	C.mls_follower_members(&f.handle, &members)
	return uint32(members)
}

// Ended returns whether the group is over: a commit with a ReInit was accepted (11.2).
func (f *Follower) Ended() bool {
	var ended C.uint32_t
	C.mls_follower_ended(&f.handle, &ended)
	return ended == 1
}

// Rules returns the set of strict rules. No message changes it.
func (f *Follower) Rules() Rules {
	var rules C.uint16_t
	C.mls_follower_rules(&f.handle, &rules)
	return Rules(rules)
}

// MakeStrict adds strict rules to those of the follower. Only those that it lacks are checked. If they cannot be added, the
// error is a Refused, and nothing has changed.
func (f *Follower) MakeStrict(rules Rules) error {
	return refused(C.mls_follower_make_strict(&f.handle, C.uint16_t(rules)))
}

// TreeHash returns the tree hash (7.8, 8.1).
func (f *Follower) TreeHash() ([]byte, error) {
	return filled(func(hash []byte, needed *C.size_t) uint32 {
		return uint32(C.mls_follower_tree_hash(&f.handle, at(hash), size(hash), needed))
	})
}

// ConfirmedHash returns the confirmed transcript hash (8.2).
func (f *Follower) ConfirmedHash() ([]byte, error) {
	return filled(func(hash []byte, needed *C.size_t) uint32 {
		return uint32(C.mls_follower_confirmed_hash(&f.handle, at(hash), size(hash), needed))
	})
}

// GroupID returns the group ID (8.1).
func (f *Follower) GroupID() ([]byte, error) {
	return filled(func(id []byte, needed *C.size_t) uint32 {
		return uint32(C.mls_follower_group_id(&f.handle, at(id), size(id), needed))
	})
}

// Context returns the encoded GroupContext (8.1).
func (f *Follower) Context() ([]byte, error) {
	return filled(func(context []byte, needed *C.size_t) uint32 {
		return uint32(C.mls_follower_context(&f.handle, at(context), size(context), needed))
	})
}

// Tree returns the encoded ratchet tree (12.4.3.3).
func (f *Follower) Tree() ([]byte, error) {
	return filled(func(tree []byte, needed *C.size_t) uint32 {
		return uint32(C.mls_follower_tree(&f.handle, at(tree), size(tree), needed))
	})
}

// A Member has its leaf index, its encoded credential (5.3) and its signature key (7.2).
type Member struct {
	Leaf                     uint32
	Credential, SignatureKey []byte
}

// Member returns the member at a leaf index. The second result is false if the leaf is blank, or the tree has no such leaf.
func (f *Follower) Member(leaf uint32) (Member, bool, error) {
	credential, key, err := filledPair(func(one []byte, oneNeeded *C.size_t, two []byte, twoNeeded *C.size_t) uint32 {
		return uint32(C.mls_follower_member(&f.handle, C.uint32_t(leaf), at(one), size(one), oneNeeded, at(two), size(two),
			twoNeeded))
	})
	if errors.Is(err, Fault(C.MLS_NO_MEMBER)) {
		return Member{}, false, nil
	}
	return Member{leaf, credential, key}, err == nil, err
}

// EachMember calls visit for each member, by its leaf index, until visit returns false. The visit may process no message.
func (f *Follower) EachMember(visit func(Member) bool) error {
	left := f.Members()
	for leaf := uint32(0); left > 0; leaf++ {
		member, found, err := f.Member(leaf)
		if err != nil {
			return err
		}
		if found {
			left--
			if !visit(member) {
				return nil
			}
		}
	}
	return nil
}

// Pending returns the references of the pending proposals (5.2, 12.4), in the order in which they were accepted.
func (f *Follower) Pending() ([][]byte, error) {
	var count C.size_t
	C.mls_follower_pending(&f.handle, &count)
	var references [][]byte
	for k := C.size_t(0); k < count; k++ {
		reference, err := filled(func(reference []byte, needed *C.size_t) uint32 {
			return uint32(C.mls_follower_pending_at(&f.handle, k, at(reference), size(reference), needed))
		})
		if err != nil {
			return nil, err
		}
		references = append(references, reference)
	}
	return references, nil
}

// State returns the state as a file, from which Resume resumes. It has the strict rules, and no receipts.
func (f *Follower) State() ([]byte, error) {
	return filled(func(state []byte, needed *C.size_t) uint32 {
		return uint32(C.mls_follower_state(&f.handle, at(state), size(state), needed))
	})
}

// Query returns the signatures of a message that have no receipt yet. Bytes that are no message have none.
func (f *Follower) Query(message []byte) ([]Signature, error) {
	records, err := filled(func(buffer []byte, needed *C.size_t) uint32 {
		return uint32(C.mls_follower_query(&f.handle, at(message), size(message), at(buffer), size(buffer), needed))
	})
	if errors.Is(err, Fault(C.MLS_REFUSED_MALFORMED)) {
		return nil, nil
	}
	return signatures(records), err
}

// Learn learns that the signatures with these receipts are good.
func (f *Follower) Learn(receipts [][32]byte) error {
	good := joined(receipts)
	if number := C.mls_follower_learn(&f.handle, at(good), size(good)); number != 0 {
		return Fault(number)
	}
	return nil
}

// Judge processes a message (6), and accepts it if and only if it satisfies every rule of the profile, and every strict rule
// of the follower's set. No lifetime is checked. The error is a Refusal if it does not, and nothing has changed then.
func (f *Follower) Judge(message []byte) (Accepted, error) {
	reference := make([]byte, C.MLS_REFERENCE_SIZE)
	return f.answer(C.mls_follower_judge(&f.handle, at(message), size(message), at(reference), size(reference)), reference)
}

// JudgeAt processes a message as Judge does, at the time now, in whole seconds since 1970. A time before 1970 counts as 0. The
// lifetime of the leaf node of each Add that the message has by value must include it (7.2, 7.3, 10.1), otherwise the error is
// the Refusal 53. No other lifetime is checked, and the state has no time. Messages that were accepted before are processed
// again by Judge: at a later time one of them might be refused.
func (f *Follower) JudgeAt(now time.Time, message []byte) (Accepted, error) {
	seconds := now.Unix()
	if seconds < 0 {
		seconds = 0
	}
	reference := make([]byte, C.MLS_REFERENCE_SIZE)
	return f.answer(C.mls_follower_judge_at(&f.handle, C.uint64_t(seconds), at(message), size(message), at(reference),
		size(reference)), reference)
}

// answer returns the answer to a message that was processed.
func (f *Follower) answer(answer C.mls_judgement, reference []byte) (Accepted, error) {
	switch {
	case answer.number >= 100:
		return Accepted{}, Fault(answer.number)
	case answer.number != 0:
		return Accepted{}, Refusal{uint32(answer.number), uint32(answer.inner), uint32(answer.leaf)}
	case answer.kind == C.MLS_COMMIT:
		return Accepted{Epoch: uint64(answer.epoch)}, nil
	}
	hash, err := f.TreeHash()
	return Accepted{Reference: reference[:len(hash)]}, err
}
