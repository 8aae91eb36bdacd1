package api

import (
	"bytes"
	"context"
	"crypto/sha256"
	"encoding/hex"
	"encoding/json"
	"fmt"
	"io"
	"math/rand"
	"net"
	"net/http"
	"os"
	"os/exec"
	"path/filepath"
	"strings"
	"sync"
	"testing"
	"time"

	"mlscheckd/internal/events"
	"mlscheckd/internal/follow/followtest"
	"mlscheckd/internal/groups"
	"mlscheckd/internal/metrics"
	"mlscheckd/internal/store"
	"mlscheckd/internal/store/storetest"
)

// The variables by which a process of this test is a service: its store, and its socket.
const (
	storeVariable  = "MLSCHECKD_TEST_STORE"
	socketVariable = "MLSCHECKD_TEST_SOCKET"
)

func TestMain(m *testing.M) {
	if name := os.Getenv(storeVariable); name != "" {
		fmt.Fprintln(os.Stderr, serve(name, os.Getenv(socketVariable)))
		os.Exit(3)
	}
	os.Exit(m.Run())
}

// serve is a service over the library for tests, until it is killed.
func serve(name, socket string) error {
	db, err := store.Open(context.Background(), name)
	if err != nil {
		return err
	}
	log, m := events.New(io.Discard), metrics.New()
	service := groups.New(db, &followtest.Library{}, groups.DefaultLimits, m, log)
	os.Remove(socket)
	listener, err := net.Listen("unix", socket)
	if err != nil {
		return err
	}
	return http.Serve(listener, New(service, DefaultLimits, m, log, nil))
}

// A killable is a service in a process of its own.
type killable struct {
	*testing.T
	name, socket string
	client       http.Client
	process      *exec.Cmd
}

func (k *killable) start() {
	k.Helper()
	k.process = exec.Command(os.Args[0])
	k.process.Env = append(os.Environ(), storeVariable+"="+k.name, socketVariable+"="+k.socket)
	k.process.Stderr = os.Stderr
	if err := k.process.Start(); err != nil {
		k.Fatal(err)
	}
}

func (k *killable) kill() {
	k.process.Process.Kill()
	k.process.Wait()
}

// ask sends a request until it has an answer, as a client does, and returns the JSON.
func (k *killable) ask(method, path string, body []byte) (map[string]any, error) {
	for end := time.Now().Add(2 * time.Minute); time.Now().Before(end); time.Sleep(2 * time.Millisecond) {
		request, err := http.NewRequest(method, "http://mlscheckd"+path, bytes.NewReader(body))
		if err != nil {
			return nil, err
		}
		response, err := k.client.Do(request)
		if err != nil {
			continue
		}
		var value map[string]any
		err = json.NewDecoder(response.Body).Decode(&value)
		response.Body.Close()
		if err == nil && response.StatusCode/100 == 2 {
			return value, nil
		}
		if err == nil && response.StatusCode/100 == 4 {
			return nil, fmt.Errorf("%s %s: %d %v", method, path, response.StatusCode, value)
		}
	}
	return nil, fmt.Errorf("%s %s has no answer", method, path)
}

// answers are the sequences that accepted messages of a group were answered with, by their digests.
type answers map[string]float64

// send sends two rivals for each epoch, one after the other, until it is told to end. Each has an answer.
func (k *killable) send(group string, ending chan struct{}) (got answers, err error) {
	got = answers{}
	for epoch := uint64(1); ; epoch++ {
		for i, who := range []string{"one", "two"} {
			select {
			case <-ending:
				return got, nil
			default:
			}
			m := followtest.Commit(group, epoch, alice, who)
			a, err := k.ask("POST", "/v1/groups/"+group+"/handshakes", m)
			if err != nil {
				return got, err
			}
			if (a["verdict"] == "accepted") != (i == 0) || i == 1 && a["rule"] != 4.0 {
				return got, fmt.Errorf("%v", a)
			}
			if i == 0 {
				sum := sha256.Sum256(m)
				got[hex.EncodeToString(sum[:])] = a["sequence"].(float64)
			}
		}
	}
}

// A service that is killed at any moment under load has stored what it has answered, once, in its place, and goes on.
func TestKills(t *testing.T) {
	storetest.Each(t, func(t *testing.T, name string) {
		folder, err := os.MkdirTemp("", "mlscheckd")
		if err != nil {
			t.Fatal(err)
		}
		defer os.RemoveAll(folder)
		k := &killable{T: t, name: name, socket: filepath.Join(folder, "socket")}
		k.client = http.Client{Timeout: 10 * time.Second, Transport: &http.Transport{MaxIdleConnsPerHost: 16,
			Dial: func(string, string) (net.Conn, error) { return net.Dial("unix", k.socket) }}}
		k.start()
		defer func() { k.kill() }()
		const count, kills = 8, 12
		ending, all := make(chan struct{}), sync.WaitGroup{}
		var got [count]answers
		for i := range got {
			all.Add(1)
			go func(i int) {
				defer all.Done()
				group, tree := fmt.Sprint("g", i), followtest.Tree("alice")
				_, err := k.ask("PUT", fmt.Sprintf("/v1/groups/%s?tree=%d", group, len(tree)), append(followtest.Info(group, 1), tree...))
				if err == nil {
					got[i], err = k.send(group, ending)
				}
				if err != nil {
					t.Error(err)
				}
			}(i)
		}
		chosen := rand.New(rand.NewSource(1))
		for i := 0; i < kills; i++ {
			if _, err := k.ask("GET", "/v1/groups", nil); err != nil {
				t.Fatal(err)
			}
			time.Sleep(time.Duration(chosen.Intn(100)) * time.Millisecond)
			k.kill()
			k.start()
		}
		close(ending)
		all.Wait()
		total := 0
		for i := range got {
			total += len(got[i])
			k.check(fmt.Sprint("g", i), got[i])
		}
		if total < kills {
			t.Fatal(total, "answers")
		}
	})
}

// check compares the answers of a group with what is stored.
func (k *killable) check(group string, got answers) {
	k.Helper()
	stored, after := map[string]float64{}, 0
	for more := true; more; {
		list, err := k.ask("GET", fmt.Sprintf("/v1/groups/%s/handshakes?limit=1000&after=%d", group, after), nil)
		if err != nil {
			k.Fatal(err)
		}
		rows := list["handshakes"].([]any)
		for _, r := range rows {
			r := r.(map[string]any)
			if after++; r["sequence"] != float64(after) || r["answer"].(map[string]any)["epoch"] != float64(after+1) {
				k.Fatal(group, after, r)
			}
			stored[r["digest"].(string)] = float64(after)
		}
		more = len(rows) > 0
	}
	if len(stored) != after {
		k.Fatal(group, "has a message twice")
	}
	for digest, sequence := range got {
		if stored[digest] != sequence {
			k.Fatal(group, digest, sequence, stored[digest])
		}
	}
	// Whoever sends one again has the same answer, and the state is that of all of them.
	if a, err := k.ask("POST", "/v1/groups/"+group+"/handshakes", commitOf(group, "one", 1)); err != nil || a["repeated"] != true || a["sequence"] != 1.0 {
		k.Fatal(a, err)
	}
	response, err := k.client.Get("http://mlscheckd/v1/groups/" + group + "/state")
	if err != nil {
		k.Fatal(err)
	}
	defer response.Body.Close()
	state, err := io.ReadAll(response.Body)
	if err != nil || !strings.Contains(string(state), fmt.Sprintf(`"Epoch":%d,`, after+1)) {
		k.Fatal(string(state), after, err)
	}
}

func commitOf(group, who string, epoch uint64) []byte {
	return followtest.Commit(group, epoch, alice, who)
}
