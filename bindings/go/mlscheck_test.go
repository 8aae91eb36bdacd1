package mlscheck

import (
	"bytes"
	"crypto/ed25519"
	"encoding/binary"
	"encoding/hex"
	"fmt"
	"math"
	"os"
	"strings"
	"testing"
	"time"
)

func file(t *testing.T, name string) []byte {
	data, err := os.ReadFile("../../examples/" + name)
	if err != nil {
		t.Fatal(err)
	}
	return data
}

// verified returns the receipts of the good ones among signatures of the cipher suite 1.
func verified(wanted []Signature) [][32]byte {
	var good [][32]byte
	for _, w := range wanted {
		if w.Suite == 1 && ed25519.Verify(w.Key, w.Content, w.Signature) {
			good = append(good, w.Receipt)
		}
	}
	return good
}

func judged(t *testing.T, group *Follower, message []byte) string {
	wanted, err := group.Query(message)
	if err == nil {
		err = group.Learn(verified(wanted))
	}
	if err != nil {
		t.Fatal(err)
	}
	accepted, err := group.Judge(message)
	if err != nil {
		return err.Error()
	}
	if accepted.Reference != nil {
		return "accepted proposal " + hex.EncodeToString(accepted.Reference)
	}
	tree, _ := group.TreeHash()
	confirmed, _ := group.ConfirmedHash()
	return fmt.Sprintf("accepted commit %d %x %x", accepted.Epoch, tree, confirmed)
}

// Follows the group in examples/real with true signatures, each message also forged, and resumes after each.
func TestRealGroup(t *testing.T) {
	info := file(t, "real/epoch-1.info")
	wanted, err := StartQuery(info, nil, nil)
	if err != nil {
		t.Fatal(err)
	}
	group, err := Start(info, nil, verified(wanted))
	if err != nil {
		t.Fatal(err)
	}
	defer group.Close()
	tree, _ := group.TreeHash()
	lines := []string{fmt.Sprintf("ready epoch %d members %d tree %x", group.Epoch(), group.Members(), tree)}
	for log := file(t, "real/handshakes.log"); len(log) > 0; {
		var message []byte
		message, log = TakeVector(log)
		wanted, _ := group.Query(message)
		forged := strings.Replace(string(message), string(wanted[0].Signature), strings.Repeat("x", 64), 1)
		if line := judged(t, group, []byte(forged)); line != "refused 7 BadSignature" {
			t.Fatal(line)
		}
		lines = append(lines, judged(t, group, message))
	}
	if got := strings.Join(lines, "\n") + "\n"; got != string(file(t, "c/expected.txt")) {
		t.Fatal(got)
	}
	if _, err := Start(info, nil, nil); err != (Refused{6, 5, 0}) {
		t.Fatal(err)
	}
}

// replaced returns the bytes with those from at on, of which there are length, replaced.
func replaced(data []byte, at, length int, by ...byte) []byte {
	return bytes.Join([][]byte{data[:at], by, data[at+length:]}, nil)
}

// repeated is an extensions list with a type twice, which no leaf node of the group supports.
var repeated = []byte{6, 0xf0, 0, 0, 0xf0, 0, 0}

func messages(t *testing.T) (list [][]byte) {
	for log := file(t, "real/handshakes.log"); len(log) > 0; {
		var message []byte
		message, log = TakeVector(log)
		list = append(list, message)
	}
	return
}

// trusted returns the receipts of the signatures.
func trusted(wanted []Signature) (receipts [][32]byte) {
	for _, w := range wanted {
		receipts = append(receipts, w.Receipt)
	}
	return
}

// trusting learns that each signature of the message is good, and has it checked.
func trusting(t *testing.T, group *Follower, message []byte) error {
	wanted, err := group.Query(message)
	if err == nil {
		err = group.Learn(trusted(wanted))
	}
	if err != nil {
		t.Fatal(err)
	}
	_, err = group.Judge(message)
	return err
}

func expect(t *testing.T, err, expected error) {
	t.Helper()
	if err != expected {
		t.Fatalf("%v, and not %v", err, expected)
	}
}

// Resumes from a state with three leaf nodes and a pending Remove proposal, by true signatures.
func TestStateSignatures(t *testing.T) {
	info := file(t, "real/epoch-1.info")
	wanted, _ := StartQuery(info, nil, nil)
	group, err := Start(info, nil, verified(wanted))
	if err != nil {
		t.Fatal(err)
	}
	defer group.Close()
	for _, message := range messages(t)[:4] {
		judged(t, group, message)
	}
	state, err := group.State()
	expect(t, err, nil)
	wanted, err = ResumeQuery(state, nil)
	expect(t, err, nil)
	var fronts []string
	for _, w := range wanted {
		fronts = append(fronts, hex.EncodeToString(w.Receipt[:4]))
	}
	if got := strings.Join(fronts, " "); got != "b40a5210 8239c971 311cfcb5 efd6a6ad" {
		t.Fatal(got)
	}
	good := verified(wanted)
	left, err := ResumeQuery(state, good)
	expect(t, err, nil)
	if len(good) != 4 || len(left) != 0 {
		t.Fatal(good, left)
	}
	other, err := Resume(state, good)
	expect(t, err, nil)
	defer other.Close()
	again, err := other.State()
	expect(t, err, nil)
	if !bytes.Equal(again, state) {
		t.Fatal(again)
	}
	for i, refusal := range []Refused{{7, 5, 0}, {7, 5, 1}, {7, 5, 2}, {9, 0, 0}} {
		others := append(append([][32]byte{}, good[:i]...), good[i+1:]...)
		left, err := ResumeQuery(state, others)
		expect(t, err, nil)
		if len(left) != 1 || left[0].Receipt != good[i] {
			t.Fatal(left)
		}
		_, err = Resume(state, others)
		expect(t, err, refusal)
	}
	_, err = ResumeQuery(nil, nil)
	expect(t, err, Refused{1, 1, 0})
}

// Follows the group by all strict rules: each message, and before it the same with a byte less in its membership tag.
func TestStrictRules(t *testing.T) {
	info := file(t, "real/epoch-1.info")
	wanted, _ := StartQuery(info, nil, nil)
	group, err := StartBy(Strict, Members, info, nil, verified(wanted))
	if err != nil {
		t.Fatal(err)
	}
	defer group.Close()
	for _, message := range messages(t) {
		expect(t, trusting(t, group, replaced(message, len(message)-33, 2, 31)), Refusal{40, 0, 0})
		expect(t, trusting(t, group, message), nil)
	}
	if group.Epoch() != 8 || group.Rules() != Strict {
		t.Fatal(group.Epoch(), group.Rules())
	}
	state, err := group.State()
	expect(t, err, nil)
	wanted, err = ResumeQuery(state, nil)
	expect(t, err, nil)
	other, err := Resume(state, verified(wanted))
	expect(t, err, nil)
	defer other.Close()
	if other.Rules() != Strict {
		t.Fatal(other.Rules())
	}
	if Strict&^Rule(47) != 0x1f7f || Rule(40)|Rule(52) != 0x1001 {
		t.Fatal("a rule has another bit")
	}
}

// Adds strict rules to a follower with two pending proposals, of which the second has a type of extension twice.
func TestAddedRules(t *testing.T) {
	info := file(t, "real/epoch-1.info")
	wanted, _ := StartQuery(info, nil, nil)
	group, err := Start(info, nil, verified(wanted))
	if err != nil {
		t.Fatal(err)
	}
	defer group.Close()
	all := messages(t)
	for _, message := range all[:4] {
		expect(t, trusting(t, group, message), nil)
	}
	// Its Remove proposal is replaced by a GroupContextExtensions proposal.
	remove := all[3]
	expect(t, trusting(t, group, replaced(remove, len(remove)-105, 6, append([]byte{0, 7}, repeated...)...)), nil)
	expect(t, group.MakeStrict(Strict), Refused{11, 0, 1})
	expect(t, group.MakeStrict(0x2000), Refused{114, 0, 0})
	if group.Rules() != Plain {
		t.Fatal(group.Rules())
	}
	expect(t, group.MakeStrict(Strict&^Rule(41)), nil)
	expect(t, trusting(t, group, all[4]), nil)
	expect(t, group.MakeStrict(Rule(41)), nil)
	if group.Rules() != Strict {
		t.Fatal(group.Rules())
	}
}

// Refuses a GroupContext with a type of extension twice by the strict rules alone.
func TestGroupsThatAreNotStrict(t *testing.T) {
	info, context := file(t, "real/epoch-1.info"), file(t, "real/epoch-1.context")
	info = replaced(info, 4+len(context)-1, 1, repeated...)
	wanted, _ := StartQuery(info, nil, nil)
	good := trusted(wanted)
	group, err := StartIn(Full, info, nil, good)
	if err != nil {
		t.Fatal(err)
	}
	defer group.Close()
	_, err = StartBy(Strict, Full, info, nil, good)
	expect(t, err, Refused{9, 41, math.MaxUint64})
	_, err = StartBy(Rule(51), Full, info, nil, good)
	expect(t, err, Refused{9, 51, 0})
	expect(t, group.MakeStrict(Strict), Refused{10, 41, math.MaxUint64})
	context, tree := file(t, "real/epoch-8.context"), file(t, "real/epoch-8.tree")
	var receipts [][32]byte
	for _, line := range strings.Fields(string(file(t, "real/receipts.txt"))) {
		var receipt [32]byte
		hex.Decode(receipt[:], []byte(line))
		receipts = append(receipts, receipt)
	}
	hash, err := ValidateTreeStrict(context, tree, receipts, Strict)
	expect(t, err, nil)
	if hex.EncodeToString(hash[:4]) != "72763a49" {
		t.Fatal(hash)
	}
	_, err = ValidateTreeStrict(replaced(context, len(context)-1, 1, repeated...), tree, receipts, Strict)
	expect(t, err, Refused{9, 41, math.MaxUint64})
}

// keyPackage is the capabilities of the group's leaf nodes, and the source key_package. The lifetime follows (7.2).
var keyPackage = []byte{2, 0, 1, 6, 0, 2, 0, 1, 0, 3, 0, 0, 2, 0, 1, 1}

// lifetime returns the first and the last second of the lifetime of the leaf node that a message adds, or 0 if it adds none.
func lifetime(message []byte) (first, last int64) {
	_, after, found := bytes.Cut(message, keyPackage)
	if !found {
		return
	}
	return int64(binary.BigEndian.Uint64(after)), int64(binary.BigEndian.Uint64(after[8:]))
}

// Follows the group at times inside the lifetimes of those that are added. Outside each Add is refused, by the last rule.
func TestTimes(t *testing.T) {
	info := file(t, "real/epoch-1.info")
	wanted, _ := StartQuery(info, nil, nil)
	group, err := Start(info, nil, verified(wanted))
	if err != nil {
		t.Fatal(err)
	}
	defer group.Close()
	adds := 0
	for _, message := range messages(t) {
		_, err := group.JudgeAt(time.Time{}, message)
		expect(t, err, Refusal{7, 0, 0})
		wanted, err := group.Query(message)
		expect(t, err, nil)
		expect(t, group.Learn(verified(wanted)), nil)
		first, last := lifetime(message)
		if first > 0 {
			adds++
			for _, now := range []time.Time{{}, time.Unix(-1, 0), time.Unix(first-1, 999999999), time.Unix(last+1, 0)} {
				_, err := group.JudgeAt(now, message)
				expect(t, err, Refusal{53, 0, 0})
			}
			if (Refusal{Number: 53}).Name() != "LifetimeOutside" {
				t.Fatal(Refusal{Number: 53})
			}
		}
		now := time.Unix(first, 0)
		if adds%2 == 0 {
			now = time.Unix(last, 999999999)
		}
		_, err = group.JudgeAt(now, message)
		expect(t, err, nil)
	}
	if adds != 4 || group.Epoch() != 8 || group.Members() != 3 {
		t.Fatal(adds, group.Epoch(), group.Members())
	}
}

// groupID is the id of the group in examples/real.
const groupID = "2465531c40cda7923c62292d3a824c84d15fae2af10cb7a5015875f18a1d2a1a"

// bytesOf returns the bytes of hexadecimal digits, with spaces between some.
func bytesOf(t *testing.T, digits string) []byte {
	data, err := hex.DecodeString(strings.ReplaceAll(digits, " ", ""))
	if err != nil {
		t.Fatal(err)
	}
	return data
}

// factsOf returns the facts of a message as text: the wire format, the group id, the epoch, the content type, the sender, the
// counts of proposals, the signature key, and whether there is no group id.
func factsOf(t *testing.T, message []byte) string {
	f, err := MessageFacts(message)
	if err != nil {
		t.Fatal(err)
	}
	return fmt.Sprintf("%d %x %d %d %d %d %v %x %t", f.WireFormat, f.GroupID, f.Epoch, f.ContentType, f.SenderType,
		f.SenderIndex, f.Proposals, f.SignatureKey, f.GroupID == nil)
}

func TestFactsOfMessages(t *testing.T) {
	expected := []string{
		"1 " + groupID + " 1 3 1 1 {1 0 0 0 0 0 0 0}  false",
		"1 " + groupID + " 2 3 1 2 {0 0 1 0 0 0 0 0}  false",
		"1 " + groupID + " 3 3 1 0 {1 0 0 0 0 0 0 0}  false",
		"1 " + groupID + " 4 2 1 1 {0 0 1 0 0 0 0 0}  false",
		"1 " + groupID + " 4 3 1 0 {1 0 0 0 0 0 0 1}  false",
		"1 " + groupID + " 5 2 1 2 {0 0 1 0 0 0 0 0}  false",
		"1 " + groupID + " 5 3 1 1 {0 0 0 0 0 0 0 1}  false",
		"1 " + groupID + " 6 2 1 0 {0 0 1 0 0 0 0 0}  false",
		"1 " + groupID + " 6 3 1 1 {0 0 0 0 0 0 0 0}  false",
		"1 " + groupID + " 7 3 1 1 {1 0 0 0 0 0 0 0}  false",
	}
	for i, message := range messages(t) {
		if got := factsOf(t, message); got != expected[i] {
			t.Error(got)
		}
	}
	const leaf = "01b1 0001 0141 020001 020001 00 00 020001"
	others := [][2]string{
		// a new_member_commit with an ExternalInit
		{"0001 0001 0147 0000000000000000 04 00 03 05 01 0006 01aa 01 0181 " + leaf +
			" 03 00 00 01c1 07 01d1 04 01aa 01bb 01c6 01e1", "1 47 0 3 4 0 {0 0 0 0 0 1 0 0} b1 false"},
		// a KeyPackage
		{"0001 0005 0001 0001 01f1 01a1 " + leaf + " 01 0000000000000000 ffffffffffffffff 00 01c1 00 01c9",
			"5  0 0 0 0 {0 0 0 0 0 0 0 0} b1 true"},
		// PrivateMessages, of which the last has no body that can be read
		{"0001 0002 0147 0000000000000005 03 00 01da 01db", "2 47 5 3 0 0 {0 0 0 0 0 0 0 0}  false"},
		{"0001 0002 00 ffffffffffffffff 01 00 00 00", "2  18446744073709551615 1 0 0 {0 0 0 0 0 0 0 0}  false"},
		{"0001 0002", "2  0 0 0 0 {0 0 0 0 0 0 0 0}  true"},
		// a Welcome
		{"0001 0003 0001 00 00", "3  0 0 0 0 {0 0 0 0 0 0 0 0}  true"},
	}
	for _, other := range others {
		if got := factsOf(t, bytesOf(t, other[0])); got != other[1] {
			t.Error(got)
		}
	}
	if got := factsOf(t, file(t, "real/epoch-1.info")); got != "4 "+groupID+" 1 0 0 0 {0 0 0 0 0 0 0 0}  false" {
		t.Error(got)
	}
	if _, err := MessageFacts(nil); err != (Refusal{Number: 1}) {
		t.Error(err)
	}
	// a group id that is longer than the first buffer
	long := append(bytesOf(t, "0001 0002 412c"), make([]byte, 300)...)
	long = append(long, bytesOf(t, "0000000000000005 03 00 00 00")...)
	if f, err := MessageFacts(long); err != nil || !bytes.Equal(f.GroupID, make([]byte, 300)) {
		t.Error(f, err)
	}
}

// part returns a part of a group.
func part(t *testing.T, of func() ([]byte, error)) string {
	data, err := of()
	if err != nil {
		t.Fatal(err)
	}
	return string(data)
}

func TestPartsOfAGroup(t *testing.T) {
	info := file(t, "real/epoch-1.info")
	wanted, err := StartQuery(info, nil, nil)
	expect(t, err, nil)
	group, err := Start(info, nil, trusted(wanted))
	expect(t, err, nil)
	defer group.Close()
	proposals := []string{"3de57220", "39a97df5", "af353f8d"}
	for _, message := range append([][]byte{nil}, messages(t)...) {
		pending := 0
		if message != nil {
			if err := trusting(t, group, message); err != nil {
				t.Fatal(err)
			}
			if f, _ := MessageFacts(message); f.ContentType == 2 {
				pending = 1
			}
		}
		if id := part(t, group.GroupID); id != string(bytesOf(t, groupID)) {
			t.Errorf("%x", id)
		}
		references, err := group.Pending()
		if err != nil || len(references) != pending {
			t.Fatal(references, err)
		}
		if pending == 1 {
			if got := hex.EncodeToString(references[0][:4]); got != proposals[0] {
				t.Error(got)
			}
			proposals = proposals[1:]
		}
		if epoch := group.Epoch(); epoch == 1 || epoch == 4 && pending == 0 || epoch == 8 {
			if part(t, group.Context) != string(file(t, fmt.Sprintf("real/epoch-%d.context", epoch))) {
				t.Error("the GroupContext differs")
			}
			if part(t, group.Tree) != string(file(t, fmt.Sprintf("real/epoch-%d.tree", epoch))) {
				t.Error("the tree differs")
			}
		}
	}
	var members []string
	if err := group.EachMember(func(m Member) bool {
		members = append(members, fmt.Sprintf("%d %x %x %d", m.Leaf, m.Credential, m.SignatureKey[:4], len(m.SignatureKey)))
		return true
	}); err != nil {
		t.Fatal(err)
	}
	if got := strings.Join(members, ", "); got !=
		"0 00010467332d30 6634f895 32, 1 00010467332d33 4420bff9 32, 2 00010467332d35 5ca4aa35 32" {
		t.Error(got)
	}
	for _, leaf := range []uint32{3, 4, math.MaxUint32} {
		if _, found, err := group.Member(leaf); found || err != nil {
			t.Error(leaf, err)
		}
	}
}
