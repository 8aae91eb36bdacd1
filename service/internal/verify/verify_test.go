package verify

import (
	"crypto/ecdsa"
	"crypto/elliptic"
	"crypto/rand"
	"crypto/sha256"
	"crypto/sha512"
	"encoding/hex"
	"fmt"
	"os"
	"strings"
	"testing"

	"mlscheckd/internal/follow"
)

// made returns the signatures that the command openssl made (testdata/make).
func made(t testing.TB) (list []follow.Signature) {
	data, err := os.ReadFile("testdata/signatures.txt")
	if err != nil {
		t.Fatal(err)
	}
	for _, line := range strings.Split(strings.TrimSpace(string(data)), "\n") {
		var s follow.Signature
		var key, content, signature string
		if _, err := fmt.Sscan(line, &s.Suite, &key, &content, &signature); err != nil {
			t.Fatal(err)
		}
		s.Key, _ = hex.DecodeString(key)
		s.Content, _ = hex.DecodeString(content)
		s.Signature, _ = hex.DecodeString(signature)
		s.Receipt[0] = byte(s.Suite)
		list = append(list, s)
	}
	if len(list) != 7 {
		t.Fatal(len(list))
	}
	return list
}

func expect(t *testing.T, s follow.Signature, want bool, what string) {
	t.Helper()
	if got, err := IsGood(s); got != want || err != nil {
		t.Errorf("suite %d, %s: %v %v", s.Suite, what, got, err)
	}
}

func TestSuites(t *testing.T) {
	for _, s := range made(t) {
		expect(t, s, true, "as it is")
		for part, bytes := range []*[]byte{&s.Key, &s.Content, &s.Signature} {
			whole := *bytes
			for at := range whole {
				changed := append([]byte{}, whole...)
				changed[at] ^= 1
				*bytes = changed
				// The first byte of a point is its form. 5 is none, and every other changed byte is of another point.
				expect(t, s, false, fmt.Sprintf("part %d changed at %d", part, at))
			}
			for _, other := range [][]byte{nil, whole[:len(whole)-1], append(append([]byte{}, whole...), 0)} {
				*bytes = other
				expect(t, s, false, fmt.Sprintf("part %d of %d bytes", part, len(other)))
			}
			*bytes = whole
		}
		for _, suite := range []uint16{0, 8, 0xffff} {
			other := s
			other.Suite = suite
			expect(t, other, false, "another suite")
		}
	}
}

// A signature of one suite is none of another, but for suites with one signature scheme.
func TestOtherSuites(t *testing.T) {
	schemes := map[uint16]int{1: 1, 3: 1, 2: 2, 4: 3, 6: 3, 5: 4, 7: 5}
	for _, s := range made(t) {
		own := s.Suite
		for suite := uint16(1); suite <= 7; suite++ {
			s.Suite = suite
			expect(t, s, schemes[suite] == schemes[own], fmt.Sprint("made in suite ", own))
		}
	}
}

// A key has to be an uncompressed point (RFC 9420, 5.1.1).
func TestCompressedKey(t *testing.T) {
	for suite, curve := range map[uint16]elliptic.Curve{2: elliptic.P256(), 5: elliptic.P521(), 7: elliptic.P384()} {
		key, err := ecdsa.GenerateKey(curve, rand.Reader)
		if err != nil {
			t.Fatal(err)
		}
		content := []byte("content")
		sums := map[uint16][]byte{}
		a, b, c := sha256.Sum256(content), sha512.Sum512(content), sha512.Sum384(content)
		sums[2], sums[5], sums[7] = a[:], b[:], c[:]
		signature, err := ecdsa.SignASN1(rand.Reader, key, sums[suite])
		if err != nil {
			t.Fatal(err)
		}
		s := follow.Signature{Suite: suite, Key: elliptic.Marshal(curve, key.X, key.Y), Content: content, Signature: signature}
		expect(t, s, true, "made by Go")
		s.Key = elliptic.MarshalCompressed(curve, key.X, key.Y)
		expect(t, s, false, "compressed")
		s.Key = []byte{0}
		expect(t, s, false, "the point at infinity")
	}
}

// More signatures than one goroutine verifies are answered in their order.
func TestGood(t *testing.T) {
	var all []follow.Signature
	var want []follow.Receipt
	for i := 0; i < 100; i++ {
		s := made(t)[i%7]
		s.Receipt[1] = byte(i)
		if i%3 == 0 {
			s.Content = []byte("another text")
		} else {
			want = append(want, s.Receipt)
		}
		all = append(all, s)
	}
	got, err := Good(all)
	if err != nil || fmt.Sprint(got) != fmt.Sprint(want) {
		t.Fatal(len(got), len(want), err)
	}
	if got, err := Good(nil); len(got) != 0 || err != nil {
		t.Fatal(got, err)
	}
}

func BenchmarkSuites(b *testing.B) {
	for _, s := range made(b) {
		b.Run(fmt.Sprint(s.Suite), func(b *testing.B) {
			for i := 0; i < b.N; i++ {
				if good, _ := IsGood(s); !good {
					b.Fatal("not good")
				}
			}
		})
	}
}
