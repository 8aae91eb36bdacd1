// Load sends the handshakes of a log to a service, as those of many groups, and measures.
//
//	load -url URL[,URL..] -info FILE [-tree FILE] -log FILE [-groups N] [-clients N] [-count MESSAGES] [-name PREFIX]
//
// Each group is started under a name of its own from the same GroupInfo. A client has a group for one message at a time, so that
// the messages of a group come in order. With -retry a message without an answer is sent again for as long as it takes, as a
// client does whose service was killed. With -answers each answer of an accepted message is appended to a file: the group, the
// number of the message from 0 on, and its sequence.
package main

import (
	"bytes"
	"encoding/json"
	"errors"
	"flag"
	"fmt"
	"io"
	"math/rand"
	"net/http"
	"os"
	"sort"
	"strings"
	"sync"
	"sync/atomic"
	"time"

	"mlscheckd/internal/groups"
	"mlscheckd/internal/wire"
)

// A load is what is sent.
type load struct {
	urls            []string
	client          *http.Client
	name            string
	info, tree      []byte
	messages        [][]byte
	groups, clients int
	options         string // of each start
	retry, sticky   bool
	answers         *os.File
	retries         atomic.Int64

	mu       sync.Mutex
	verdicts map[string]int
	times    []time.Duration
}

func main() {
	l := load{verdicts: map[string]int{}}
	urls := flag.String("url", "http://127.0.0.1:9420", "the addresses of services, with commas between")
	info, tree, log := flag.String("info", "", "the GroupInfo"), flag.String("tree", "", "its tree, if it has none"), flag.String("log", "", "the messages")
	count := flag.Int("count", 0, "messages of each group; 0: all")
	answers := flag.String("answers", "", "the file of answers")
	flag.StringVar(&l.name, "name", "g", "what the names of the groups begin with")
	flag.IntVar(&l.groups, "groups", 1, "groups")
	flag.IntVar(&l.clients, "clients", 1, "clients")
	flag.StringVar(&l.options, "options", "", "options of each start, as rules=plain&lifetimes=ignored")
	flag.BoolVar(&l.retry, "retry", false, "send again what has no answer")
	flag.BoolVar(&l.sticky, "sticky", false, "ask one of the services for all of a group, otherwise any")
	flag.Parse()
	l.urls = strings.Split(*urls, ",")
	l.client = &http.Client{Timeout: 20 * time.Second, Transport: &http.Transport{MaxIdleConnsPerHost: l.clients}}
	if err := l.run(*info, *tree, *log, *answers, *count); err != nil {
		fmt.Fprintln(os.Stderr, "load:", err)
		os.Exit(1)
	}
}

func (l *load) run(info, tree, log, answers string, count int) (err error) {
	if l.info, err = os.ReadFile(info); err != nil {
		return err
	}
	if tree != "" {
		if l.tree, err = os.ReadFile(tree); err != nil {
			return err
		}
	}
	data, err := os.ReadFile(log)
	if err != nil {
		return err
	}
	ok := false
	if l.messages, ok = wire.Vectors(data); !ok {
		return errors.New("the log is no sequence of vectors")
	}
	if count > 0 && count < len(l.messages) {
		l.messages = l.messages[:count]
	}
	if answers != "" {
		if l.answers, err = os.OpenFile(answers, os.O_CREATE|os.O_APPEND|os.O_WRONLY, 0o600); err != nil {
			return err
		}
		defer l.answers.Close()
	}
	begun := time.Now()
	if err := l.each(l.start); err != nil {
		return err
	}
	fmt.Printf("started %d groups in %.2f s\n", l.groups, time.Since(begun).Seconds())
	begun = time.Now()
	if err := l.send(); err != nil {
		return err
	}
	l.report(time.Since(begun))
	return nil
}

// each calls a function for each group, as many at a time as there are clients.
func (l *load) each(work func(group int) error) error {
	var next atomic.Int64
	errs := make(chan error, l.clients)
	for c := 0; c < l.clients; c++ {
		go func() {
			for g := next.Add(1) - 1; g < int64(l.groups); g = next.Add(1) - 1 {
				if err := work(int(g)); err != nil {
					errs <- err
					return
				}
			}
			errs <- nil
		}()
	}
	var first error
	for c := 0; c < l.clients; c++ {
		if err := <-errs; err != nil && first == nil {
			first = err
		}
	}
	return first
}

func (l *load) path(group int) string { return fmt.Sprintf("/v1/groups/%s-%d", l.name, group) }

func (l *load) start(group int) error {
	_, err := l.ask(group, "PUT", fmt.Sprintf("%s?tree=%d&%s", l.path(group), len(l.tree), l.options), append(l.info[:len(l.info):len(l.info)], l.tree...))
	return err
}

// ask sends a request until it has an answer, or once.
func (l *load) ask(group int, method, path string, body []byte) ([]byte, error) {
	for {
		url := l.urls[group%len(l.urls)]
		if !l.sticky {
			url = l.urls[rand.Intn(len(l.urls))]
		}
		status, data, err := l.once(method, url+path, body)
		if err == nil && status/100 == 2 {
			return data, nil
		}
		if err == nil {
			err = fmt.Errorf("%s %s: %d %s", method, path, status, data)
		}
		if !l.retry || status/100 == 4 {
			return nil, err
		}
		l.retries.Add(1)
		time.Sleep(20 * time.Millisecond)
	}
}

func (l *load) once(method, url string, body []byte) (int, []byte, error) {
	request, err := http.NewRequest(method, url, bytes.NewReader(body))
	if err != nil {
		return 0, nil, err
	}
	response, err := l.client.Do(request)
	if err != nil {
		return 0, nil, err
	}
	defer response.Body.Close()
	data, err := io.ReadAll(response.Body)
	return response.StatusCode, data, err
}

// a step is a message of a group that is to be sent.
type step struct{ group, message int }

// send sends all messages: the first of each group, then the second of each, so that many groups are at work at a time.
func (l *load) send() error {
	steps := make(chan step, l.groups)
	for g := 0; g < l.groups; g++ {
		steps <- step{g, 0}
	}
	var left sync.WaitGroup
	left.Add(l.groups)
	go func() {
		left.Wait()
		close(steps)
	}()
	errs := make(chan error, l.clients)
	for c := 0; c < l.clients; c++ {
		go func() {
			for s := range steps {
				if s.message == len(l.messages) {
					left.Done()
					continue
				}
				if err := l.message(s); err != nil {
					errs <- err
					return
				}
				steps <- step{s.group, s.message + 1}
			}
			errs <- nil
		}()
	}
	for c := 0; c < l.clients; c++ {
		if err := <-errs; err != nil {
			return err
		}
	}
	return nil
}

func (l *load) message(s step) error {
	begun := time.Now()
	data, err := l.ask(s.group, "POST", l.path(s.group)+"/handshakes", l.messages[s.message])
	took := time.Since(begun)
	if err != nil {
		return err
	}
	var a groups.Answer
	if err := json.Unmarshal(data, &a); err != nil {
		return err
	}
	key := a.Verdict
	if a.Repeated {
		key += " again"
	}
	if a.Rule != 0 {
		key = fmt.Sprintf("%s %d", key, a.Rule)
	}
	l.mu.Lock()
	defer l.mu.Unlock()
	l.verdicts[key]++
	l.times = append(l.times, took)
	if l.answers != nil && a.Verdict == groups.Accepted {
		_, err = fmt.Fprintf(l.answers, "%s-%d %d %d\n", l.name, s.group, s.message, a.Sequence)
	}
	return err
}

func (l *load) report(took time.Duration) {
	sort.Slice(l.times, func(i, j int) bool { return l.times[i] < l.times[j] })
	at := func(part float64) float64 {
		if len(l.times) == 0 {
			return 0
		}
		return l.times[int(part*float64(len(l.times)-1))].Seconds() * 1000
	}
	fmt.Printf("%d messages in %.2f s, %.0f a second; ms p50 %.2f p90 %.2f p99 %.2f most %.2f; %v; sent again %d\n", len(l.times),
		took.Seconds(), float64(len(l.times))/took.Seconds(), at(.5), at(.9), at(.99), at(1), l.verdicts, l.retries.Load())
}
