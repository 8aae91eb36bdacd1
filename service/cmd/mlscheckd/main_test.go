package main

import (
	"bytes"
	"errors"
	"flag"
	"net"
	"net/http"
	"os"
	"path/filepath"
	"strings"
	"syscall"
	"testing"
	"time"

	"mlscheckd/internal/api"
	"mlscheckd/internal/events"
	"mlscheckd/internal/groups"
)

func TestFlags(t *testing.T) {
	o, err := parse(nil)
	if err != nil || o.groups != groups.DefaultLimits || o.api != api.DefaultLimits || o.listen != "127.0.0.1:9420" || o.db != "mlscheckd.db" {
		t.Fatal(o, err)
	}
	o, err = parse([]string{"--message", "7", "--store-time", "3s", "--db", "postgres://x"})
	if err != nil || o.groups.Message != 7 || o.api.Message != 7 || o.groups.Store != 3*time.Second || o.db != "postgres://x" {
		t.Fatal(o, err)
	}
	for _, wrong := range [][]string{{"--none"}, {"--message", "x"}, {"word"}, {"--time", "5"}, {"--requests", "0"}, {"--starts", "-1"},
		{"--store-time", "0"}, {"--time", "-1s"}} {
		if _, err := parse(wrong); err == nil {
			t.Error(wrong)
		}
	}
	if _, err := parse([]string{"--help"}); !errors.Is(err, flag.ErrHelp) {
		t.Error(err)
	}
}

// A service on a Unix socket starts although a killed one has left the socket, answers, and ends when it is told to.
func TestRun(t *testing.T) {
	folder := t.TempDir()
	socket := filepath.Join(folder, "socket")
	left, err := net.ListenUnix("unix", &net.UnixAddr{Name: socket, Net: "unix"})
	if err != nil {
		t.Fatal(err)
	}
	left.SetUnlinkOnClose(false)
	left.Close()
	o, err := parse([]string{"--listen", "unix:" + socket, "--db", filepath.Join(folder, "db")})
	if err != nil {
		t.Fatal(err)
	}
	var lines bytes.Buffer
	ended := make(chan error)
	go func() { ended <- run(o, events.New(&lines)) }()
	client := http.Client{Transport: &http.Transport{Dial: func(string, string) (net.Conn, error) { return net.Dial("unix", socket) }}}
	for i := 0; ; i++ {
		if r, err := client.Get("http://mlscheckd/readyz"); err == nil && r.StatusCode == 200 {
			r.Body.Close()
			break
		} else if i > 6000 {
			t.Fatal(err)
		}
		time.Sleep(10 * time.Millisecond)
	}
	// Neither the store nor the socket is another's.
	other := o
	other.db = filepath.Join(folder, "other")
	for _, o := range []options{o, other} {
		if err := run(o, events.New(&bytes.Buffer{})); err == nil || !strings.Contains(err.Error(), "another process") {
			t.Fatal(err)
		}
	}
	syscall.Kill(os.Getpid(), syscall.SIGTERM)
	if err := <-ended; err != nil {
		t.Fatal(err)
	}
	if !strings.Contains(lines.String(), `"msg":"ready"`) || !strings.Contains(lines.String(), `"msg":"stopped"`) {
		t.Fatal(lines.String())
	}
}
