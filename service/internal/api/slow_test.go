package api

import (
	"bufio"
	"bytes"
	"fmt"
	"io"
	"net"
	"net/http"
	"net/http/httptest"
	"strings"
	"testing"
	"time"

	"mlscheckd/internal/events"
	"mlscheckd/internal/follow/followtest"
	"mlscheckd/internal/groups"
	"mlscheckd/internal/metrics"
	"mlscheckd/internal/store/storetest"
	"mlscheckd/internal/wire"
)

// held is a library whose groups wait at each message.
type held struct {
	*followtest.Library
	arrived, goOn chan struct{}
}

func newHeld() held {
	h := held{&followtest.Library{}, make(chan struct{}), make(chan struct{})}
	h.Fault = func(call string) error {
		if call == "Stage" {
			h.arrived <- struct{}{}
			<-h.goOn
		}
		return nil
	}
	return h
}

// Starts and batches that take long do not keep messages out.
func TestLong(t *testing.T) {
	storetest.Each(t, func(t *testing.T, name string) {
		limits, h := DefaultLimits, newHeld()
		limits.Requests = 1
		c := open(t, storetest.Open(t, name), h.Library, limits, groups.DefaultLimits)
		c.start("g", "alice")
		c.start("h", "alice")
		done := make(chan answer)
		go func() { done <- c.send("POST", "/v1/groups/g/batch", wire.AppendVector(nil, commit("g", 1))) }()
		<-h.arrived
		c.send("PUT", "/v1/groups/i", followtest.Info("i", 1)).fails(503, "busy")
		go func() { done <- c.send("POST", "/v1/groups/h/handshakes", commit("h", 1)) }()
		<-h.arrived
		for i := 0; i < 2; i++ {
			h.goOn <- struct{}{}
			(<-done).is(200)
		}
	})
}

// Over the number of requests at a time the service says that it is busy, at once. What was answered so is not judged.
func TestBusy(t *testing.T) {
	storetest.Each(t, func(t *testing.T, name string) {
		limits, h := DefaultLimits, newHeld()
		limits.Requests = 1
		c := open(t, storetest.Open(t, name), h.Library, limits, groups.DefaultLimits)
		c.start("g", "alice")
		done := make(chan answer)
		go func() { done <- c.send("POST", "/v1/groups/g/handshakes", commit("g", 1)) }()
		<-h.arrived
		c.send("POST", "/v1/groups/g/handshakes", commit("g", 1)).fails(503, "busy")
		c.send("GET", "/v1/groups/g", nil).fails(503, "busy")
		c.start("h", "alice") // a start has a place of its own
		if c.send("GET", "/healthz", nil).Code != 200 {
			t.Fatal("not alive")
		}
		h.goOn <- struct{}{}
		if a := (<-done).is(200); a["sequence"] != 1.0 {
			t.Fatal(a)
		}
		c.send("GET", "/v1/groups/g", nil).is(200)
	})
}

// Who waits for a group for longer than the time is told that the service is busy.
func TestTime(t *testing.T) {
	storetest.Each(t, func(t *testing.T, name string) {
		limits, h := DefaultLimits, newHeld()
		c := open(t, storetest.Open(t, name), h.Library, limits, groups.DefaultLimits)
		c.start("g", "alice")
		done := make(chan answer)
		go func() { done <- c.send("POST", "/v1/groups/g/handshakes", commit("g", 1)) }()
		<-h.arrived
		limits.Time = 20 * time.Millisecond
		impatient := c
		impatient.api = New(c.service, limits, metrics.New(), events.New(io.Discard), nil)
		impatient.send("POST", "/v1/groups/g/handshakes", commit("g", 1)).fails(503, "busy")
		h.goOn <- struct{}{}
		if a := (<-done).is(200); a["sequence"] != 1.0 {
			t.Fatal(a)
		}
	})
}

// The bodies of all requests have a limit together.
func TestBodies(t *testing.T) {
	storetest.Each(t, func(t *testing.T, name string) {
		limits := DefaultLimits
		limits.Bodies = 100 << 10
		c := open(t, storetest.Open(t, name), &followtest.Library{}, limits, groups.DefaultLimits)
		c.start("g", "alice")
		for i := 0; i < 3; i++ {
			c.send("POST", "/v1/groups/g/handshakes", make([]byte, 200<<10)).fails(503, "busy")
			if a := c.send("POST", "/v1/groups/g/handshakes", make([]byte, 30<<10)).is(200); a["rule"] != 1.0 {
				t.Fatal(a)
			}
			if left := c.api.bodies.Load(); left != 0 {
				t.Fatal(left)
			}
		}
	})
}

// served is an API behind a server with short times.
func served(t *testing.T, c client) *httptest.Server {
	s := httptest.NewUnstartedServer(c.api)
	s.Config.ReadTimeout = time.Second
	s.Config.ReadHeaderTimeout = time.Second
	s.Start()
	t.Cleanup(s.Close)
	return s
}

// Clients that send slowly hold nothing up, and end.
func TestSlowClients(t *testing.T) {
	storetest.Each(t, func(t *testing.T, name string) {
		limits := DefaultLimits
		limits.Requests = 2
		c := open(t, storetest.Open(t, name), &followtest.Library{}, limits, groups.DefaultLimits)
		c.start("g", "alice")
		s := served(t, c)
		var slow []net.Conn
		for i := 0; i < 20; i++ {
			conn, err := net.Dial("tcp", s.Listener.Addr().String())
			if err != nil {
				t.Fatal(err)
			}
			defer conn.Close()
			fmt.Fprint(conn, "POST /v1/groups/g/handshakes HTTP/1.1\r\nHost: x\r\nContent-Length: 1000\r\n\r\nabc")
			slow = append(slow, conn)
		}
		for epoch := uint64(1); epoch <= 5; epoch++ {
			r, err := http.Post(s.URL+"/v1/groups/g/handshakes", "message/mls", bytes.NewReader(commit("g", epoch)))
			if err != nil {
				t.Fatal(err)
			}
			text, _ := io.ReadAll(r.Body)
			if r.StatusCode != 200 || !strings.Contains(string(text), "accepted") {
				t.Fatal(r.StatusCode, string(text))
			}
		}
		for _, conn := range slow {
			conn.SetReadDeadline(time.Now().Add(time.Minute))
			r, err := http.ReadResponse(bufio.NewReader(conn), nil)
			if err == nil && r.StatusCode != 400 {
				t.Fatal(r.StatusCode)
			}
			if e, is := err.(net.Error); is && e.Timeout() {
				t.Fatal("a slow client has not ended")
			}
		}
		if left := c.api.bodies.Load(); left != 0 {
			t.Fatal(left)
		}
	})
}

// Clients that cut off while they send leave nothing behind.
func TestCutOff(t *testing.T) {
	storetest.Each(t, func(t *testing.T, name string) {
		c := open(t, storetest.Open(t, name), &followtest.Library{}, DefaultLimits, groups.DefaultLimits)
		c.start("g", "alice")
		s := served(t, c)
		m := commit("g", 1)
		whole := append([]byte(fmt.Sprintf("POST /v1/groups/g/handshakes HTTP/1.1\r\nHost: x\r\nContent-Length: %d\r\n\r\n", len(m))), m...)
		for at := 0; at < len(whole); at += 7 {
			conn, err := net.Dial("tcp", s.Listener.Addr().String())
			if err != nil {
				t.Fatal(err)
			}
			conn.Write(whole[:at])
			conn.Close()
		}
		if g := c.send("GET", "/v1/groups/g", nil).is(200); g["sequence"] != 0.0 {
			t.Fatal(g)
		}
		// One that does not wait for the answer has its message stored, or not.
		conn, err := net.Dial("tcp", s.Listener.Addr().String())
		if err != nil {
			t.Fatal(err)
		}
		conn.Write(whole)
		conn.Close()
		if a := c.send("POST", "/v1/groups/g/handshakes", m).is(200); a["verdict"] != "accepted" || a["sequence"] != 1.0 {
			t.Fatal(a)
		}
	})
}
