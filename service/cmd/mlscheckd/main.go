// Mlscheckd follows MLS groups (RFC 9420) for a delivery service. It answers each handshake by the proved library libmls_check,
// and stores what it accepts before it answers.
package main

import (
	"context"
	"errors"
	"flag"
	"fmt"
	"io"
	"net"
	"net/http"
	"os"
	"os/signal"
	"strings"
	"syscall"
	"time"

	"golang.org/x/net/netutil"

	"mlscheckd/internal/api"
	"mlscheckd/internal/events"
	"mlscheckd/internal/follow/library"
	"mlscheckd/internal/groups"
	"mlscheckd/internal/metrics"
	"mlscheckd/internal/pages"
	"mlscheckd/internal/store"
)

// options are what the flags say.
type options struct {
	listen, db string
	groups     groups.Limits
	api        api.Limits
	open       int           // connections at a time
	body       time.Duration // for a client to send a request
	end        time.Duration // for what is under way when the service ends
}

func parse(args []string) (o options, err error) {
	o.groups, o.api = groups.DefaultLimits, api.DefaultLimits
	f := flag.NewFlagSet("mlscheckd", flag.ContinueOnError)
	f.SetOutput(io.Discard) // the caller prints what is wrong
	f.StringVar(&o.listen, "listen", "127.0.0.1:9420", "the `address` to listen on, or unix:PATH. The service knows no users: let only the service in front reach it")
	f.StringVar(&o.db, "db", "mlscheckd.db", "the `file` of SQLite, for one process, or postgres://.. for several over one database. A password is better in PGPASSFILE")
	f.IntVar(&o.groups.Message, "message", o.groups.Message, "`bytes` of a message, at most")
	f.IntVar(&o.groups.Proposal, "proposal", o.groups.Proposal, "`bytes` of a proposal, at most")
	f.IntVar(&o.groups.Context, "context", o.groups.Context, "`bytes` of a GroupContext at a start, and of a GroupContextExtensions proposal, at most")
	f.IntVar(&o.groups.Pending, "pending", o.groups.Pending, "proposals of an epoch, at most")
	f.IntVar(&o.groups.Adds, "adds", o.groups.Adds, "Adds of a commit, at most")
	f.IntVar(&o.groups.Members, "members", o.groups.Members, "members of a group, at most")
	f.Int64Var(&o.groups.Bytes, "memory", o.groups.Bytes, "`bytes` of all groups in memory, about; the others are loaded when a message comes")
	f.IntVar(&o.groups.Starts, "starts", o.groups.Starts, "starts at a time")
	f.IntVar(&o.groups.Waiting, "waiting", o.groups.Waiting, "requests that wait for one group; others of this group are answered 503 at once")
	f.DurationVar(&o.groups.Store, "store-time", o.groups.Store, "how long the store may take to store a row")
	f.IntVar(&o.api.Start, "info", o.api.Start, "`bytes` of a GroupInfo with its tree, at most")
	f.IntVar(&o.api.Batch, "batch", o.api.Batch, "`bytes` of a batch, at most")
	f.Int64Var(&o.api.Bodies, "bodies", o.api.Bodies, "`bytes` of the bodies of all requests in memory, at most")
	f.IntVar(&o.api.Requests, "requests", o.api.Requests, "requests at a time, once their bodies have come; the others are answered 503 at once")
	f.DurationVar(&o.api.Time, "time", o.api.Time, "how long a message, an undo or a question may take")
	f.DurationVar(&o.api.LongTime, "long-time", o.api.LongTime, "how long a start, a batch or the bytes of a group may take")
	f.IntVar(&o.open, "connections", 4096, "connections at a time; others wait")
	f.DurationVar(&o.body, "body-time", 30*time.Second, "how long a client may take to send a request")
	f.DurationVar(&o.end, "end-time", 20*time.Second, "how long what is under way may take when the service ends")
	if err := f.Parse(args); err != nil {
		if errors.Is(err, flag.ErrHelp) {
			f.SetOutput(os.Stdout)
			f.Usage()
		}
		return o, err
	}
	if f.NArg() > 0 {
		return o, fmt.Errorf("%q is no flag", f.Arg(0))
	}
	f.VisitAll(func(limit *flag.Flag) {
		switch value := limit.Value.(flag.Getter).Get().(type) {
		case int:
			err = more(err, limit.Name, int64(value))
		case int64:
			err = more(err, limit.Name, value)
		case time.Duration:
			err = more(err, limit.Name, int64(value))
		}
	})
	if err != nil {
		return o, err
	}
	o.api.Message = o.groups.Message
	return o, nil
}

// more returns the error, or one if the value of a flag is not more than 0.
func more(err error, flag string, value int64) error {
	if err == nil && value <= 0 {
		err = fmt.Errorf("--%s has to be more than 0", flag)
	}
	return err
}

func main() {
	log := events.New(os.Stderr)
	o, err := parse(os.Args[1:])
	if errors.Is(err, flag.ErrHelp) {
		return
	}
	if err != nil {
		fmt.Fprintf(os.Stderr, "mlscheckd: %v (--help prints the flags)\n", err)
		os.Exit(2)
	}
	if err := run(o, log); err != nil {
		log.Error("ended", err)
		os.Exit(3)
	}
}

// run answers requests until the process is told to end.
func run(o options, log *events.Log) error {
	begun := time.Now()
	ctx, stop := signal.NotifyContext(context.Background(), syscall.SIGTERM, syscall.SIGINT)
	defer stop()
	opening, cancel := context.WithTimeout(ctx, time.Minute)
	defer cancel()
	s, err := store.Open(opening, o.db)
	if err != nil {
		return err
	}
	defer s.Close()
	m := metrics.New()
	s.Batches(m.Batch)
	service := groups.New(s, library.Library{}, o.groups, m, log)
	a := api.New(service, o.api, m, log, pages.New(service, log))
	listener, err := listen(o.listen)
	if err != nil {
		return err
	}
	server := &http.Server{
		Handler:           a,
		ReadHeaderTimeout: 5 * time.Second,
		ReadTimeout:       o.body,
		WriteTimeout:      o.body + o.api.LongTime,
		IdleTimeout:       2 * time.Minute,
		MaxHeaderBytes:    16 << 10,
		ErrorLog:          log.Logger("http"),
	}
	ended := make(chan error, 1)
	go func() { ended <- server.Serve(netutil.LimitListener(listener, o.open)) }()
	log.Info("ready", "listen", listener.Addr().String(), "seconds", time.Since(begun).Seconds(),
		"library", library.Library{}.Version())
	select {
	case err := <-ended:
		return err
	case <-ctx.Done():
	}
	stop() // a second signal ends the process at once
	a.Stop()
	ending, cancel := context.WithTimeout(context.Background(), o.end)
	defer cancel()
	if err := server.Shutdown(ending); err != nil {
		return err // what is still under way is as if the process had been killed
	}
	service.Close()
	log.Info("stopped")
	return nil
}

func listen(address string) (net.Listener, error) {
	path := strings.TrimPrefix(address, "unix:")
	if path == address {
		return net.Listen("tcp", address)
	}
	if at, err := os.Lstat(path); err == nil && at.Mode()&os.ModeSocket != 0 {
		if other, err := net.Dial("unix", path); err == nil {
			other.Close()
			return nil, fmt.Errorf("another process listens on %s", path)
		}
		os.Remove(path) // one that a process has left, which was killed
	}
	return net.Listen("unix", path)
}
