// Package api answers over HTTP, with bytes in bodies and JSON answers: openapi.yaml has each request.
//
// A verdict is the answer to a question, so it has the status 200, whichever it is. Another status says that there is no
// verdict, and then the message may be sent again.
package api

import (
	"bytes"
	"context"
	_ "embed"
	"encoding/json"
	"errors"
	"fmt"
	"io"
	"net/http"
	"net/url"
	"runtime/debug"
	"strconv"
	"strings"
	"sync/atomic"
	"time"

	"github.com/gorilla/mux"

	"mlscheckd/internal/events"
	"mlscheckd/internal/follow"
	"mlscheckd/internal/groups"
	"mlscheckd/internal/metrics"
	"mlscheckd/internal/store"
)

// Limits are what requests may have at most.
type Limits struct {
	Message  int           // bytes of a message
	Start    int           // bytes of a GroupInfo with its tree
	Batch    int           // bytes of a batch
	Bodies   int64         // bytes of all bodies in memory
	Requests int           // requests at a time, once their bodies are read; of starts and batches, and of downloads, a quarter each
	Time     time.Duration // for a message, an undo or a question
	LongTime time.Duration // for a start, a batch or the bytes of a group
}

// DefaultLimits are those of a service without flags.
var DefaultLimits = Limits{
	Message:  groups.DefaultLimits.Message,
	Start:    64 << 20,
	Batch:    16 << 20,
	Bodies:   256 << 20,
	Requests: 256,
	Time:     10 * time.Second,
	LongTime: 2 * time.Minute,
}

// AllowHeader is the header by which the service in front allows senders outside the group.
const AllowHeader = "Mls-Allow"

// An API answers requests for a service.
type API struct {
	service  *groups.Service
	limits   Limits
	metrics  *metrics.Metrics
	log      *events.Log
	busy     chan struct{}
	long     chan struct{} // for starts and batches
	slow     chan struct{} // for answers that a client may read slowly
	bodies   atomic.Int64  // bytes of bodies in memory
	router   *mux.Router
	stopping atomic.Bool
}

//go:embed openapi.yaml
var description []byte

// New returns an API, with pages for what it does not answer itself.
func New(service *groups.Service, limits Limits, m *metrics.Metrics, log *events.Log, pages map[string]http.HandlerFunc) *API {
	a := &API{service: service, limits: limits, metrics: m, log: log, busy: make(chan struct{}, limits.Requests),
		long: make(chan struct{}, limits.Requests/4+1), slow: make(chan struct{}, limits.Requests/4+1)}
	a.router = mux.NewRouter().UseEncodedPath().SkipClean(true)
	get := func(path string, h http.HandlerFunc) { a.router.HandleFunc(path, h).Methods("GET", "HEAD") }
	get("/healthz", func(w http.ResponseWriter, _ *http.Request) { writeText(w, "ok\n") })
	get("/readyz", a.ready)
	get("/metrics", m.Handler().ServeHTTP)
	get("/openapi.yaml", func(w http.ResponseWriter, _ *http.Request) { writeBytes(w, "application/yaml", description) })
	get("/v1/groups", a.question(a.groups))
	get("/v1/groups/{name}", a.question(a.group))
	get("/v1/groups/{name}/handshakes", a.download(a.rows))
	get("/v1/groups/{name}/refusals", a.question(a.refusals))
	get("/v1/groups/{name}/members", a.download(a.members))
	get("/v1/groups/{name}/state", a.download(a.state))
	get("/v1/groups/{name}/tree", a.download(a.tree))
	get("/v1/groups/{name}/info", a.download(a.info))
	get("/v1/groups/{name}/info-tree", a.download(a.infoTree))
	get("/v1/groups/{name}/log", a.download(a.logFile))
	get("/v1/groups/{name}/receipts", a.download(a.receipts))
	a.router.HandleFunc("/v1/groups/{name}", a.body(limits.Start, a.long, limits.LongTime, a.start)).Methods("PUT")
	a.router.HandleFunc("/v1/groups/{name}/handshakes", a.body(limits.Message, a.busy, limits.Time, a.judge)).Methods("POST")
	a.router.HandleFunc("/v1/groups/{name}/batch", a.body(limits.Batch, a.long, limits.LongTime, a.batch)).Methods("POST")
	a.router.HandleFunc("/v1/groups/{name}/undo", a.question(a.undo)).Methods("POST")
	a.router.HandleFunc("/v1/groups/{name}/confirm", a.question(a.confirm)).Methods("POST")
	for path, page := range pages {
		get(path, page)
	}
	a.router.NotFoundHandler = http.HandlerFunc(func(w http.ResponseWriter, _ *http.Request) {
		a.fail(w, failure{http.StatusNotFound, "no_path", "there is nothing at this path"})
	})
	a.router.MethodNotAllowedHandler = http.HandlerFunc(a.wrongMethod)
	return a
}

// Stop has readyz answer that the service ends, so that no more requests are sent to it.
func (a *API) Stop() { a.stopping.Store(true) }

// ServeHTTP answers a request.
func (a *API) ServeHTTP(w http.ResponseWriter, r *http.Request) {
	counted := &counting{ResponseWriter: w}
	defer func() {
		if err := recover(); err != nil && err != http.ErrAbortHandler {
			a.log.Error("panic", fmt.Errorf("%v", err), "path", r.URL.Path, "stack", string(debug.Stack()))
			a.metrics.Faults.Inc()
			if counted.status == 0 {
				a.fail(counted, unknown)
			}
		} else if err != nil {
			panic(err)
		}
		a.metrics.Response(counted.status)
	}()
	w.Header().Set("X-Content-Type-Options", "nosniff")
	// A page of another site in the browser of an operator may not change a group.
	if site := r.Header.Get("Sec-Fetch-Site"); r.Method != http.MethodGet && (site == "cross-site" || site == "same-site") {
		a.fail(counted, failure{http.StatusForbidden, "other_site", "the request comes from a page of another site"})
		return
	}
	a.router.ServeHTTP(counted, r)
}

// counting notes the status of an answer.
type counting struct {
	http.ResponseWriter
	status int
}

func (c *counting) WriteHeader(status int) {
	if c.status == 0 {
		c.status = status
	}
	c.ResponseWriter.WriteHeader(status)
}

func (c *counting) Write(data []byte) (int, error) {
	if c.status == 0 {
		c.status = http.StatusOK
	}
	return c.ResponseWriter.Write(data)
}

// A failure says that there is no verdict, and why.
type failure struct {
	status int
	code   string
	words  string
}

func (f failure) Error() string { return f.words }

func badRequest(code, words string) error { return failure{http.StatusBadRequest, code, words} }

// fail answers with a failure.
func (a *API) fail(w http.ResponseWriter, f failure) {
	if f.status == http.StatusServiceUnavailable {
		w.Header().Set("Retry-After", "1")
	}
	writeJSON(w, f.status, map[string]any{"error": f.code, "words": f.words})
}

// failed answers with the failure that an error is.
func (a *API) failed(w http.ResponseWriter, name string, err error) {
	var refused follow.Refused
	if errors.As(err, &refused) {
		writeJSON(w, http.StatusUnprocessableEntity, map[string]any{"error": "start_refused", "words": refused.Words(),
			"number": refused.Number, "name": refused.Name(), "inner": refused.Inner, "place": refused.Place})
		return
	}
	a.fail(w, a.failureOf(name, err))
}

// failureOf returns the failure that an error is. One that is not known is a fault, which is logged.
func (a *API) failureOf(name string, err error) (f failure) {
	var limit groups.LimitError
	var tooLong *http.MaxBytesError
	switch {
	case errors.As(err, &f):
		return f
	case errors.As(err, &limit):
		return failure{http.StatusRequestEntityTooLarge, "limit", limit.Error()}
	case errors.As(err, &tooLong):
		return failure{http.StatusRequestEntityTooLarge, "limit", fmt.Sprintf("more than %d bytes of a body", tooLong.Limit)}
	case errors.Is(err, groups.ErrOutside):
		return failure{http.StatusForbidden, "outside", err.Error() + ": " + AllowHeader + ": outside"}
	case errors.Is(err, groups.ErrOtherStart):
		return failure{http.StatusConflict, "other_start", err.Error()}
	case errors.Is(err, store.ErrNoGroup):
		return failure{http.StatusNotFound, "no_group", err.Error()}
	case errors.Is(err, store.ErrNoCommit):
		return failure{http.StatusConflict, "no_commit", err.Error()}
	case errors.Is(err, store.ErrConfirmed):
		return failure{http.StatusConflict, "confirmed", err.Error()}
	case errors.Is(err, groups.ErrBusy), errors.Is(err, context.Canceled): // canceled: nobody waits for the answer
		return failure{http.StatusServiceUnavailable, "busy", groups.ErrBusy.Error()}
	}
	a.metrics.Faults.Inc()
	a.log.Error("fault", err, "group", name)
	return unknown
}

// unknown is the failure of a request of which the service does not know what came of it.
var unknown = failure{http.StatusServiceUnavailable, "fault", "it is not known what came of the request; it may be made again"}

func writeJSON(w http.ResponseWriter, status int, value any) {
	data, err := json.Marshal(value)
	if err != nil { // no value that is passed here has one
		panic(err)
	}
	w.Header().Set("Content-Type", "application/json")
	w.WriteHeader(status)
	w.Write(append(data, '\n'))
}

func writeText(w http.ResponseWriter, text string) {
	writeBytes(w, "text/plain; charset=utf-8", []byte(text))
}

func writeBytes(w http.ResponseWriter, kind string, data []byte) {
	w.Header().Set("Content-Type", kind)
	w.Header().Set("Content-Length", strconv.Itoa(len(data)))
	w.Write(data)
}

func (a *API) wrongMethod(w http.ResponseWriter, r *http.Request) {
	var allowed []string
	for _, method := range []string{http.MethodGet, http.MethodHead, http.MethodPost, http.MethodPut} {
		other := r.Clone(r.Context())
		other.Method = method
		if match := (mux.RouteMatch{}); a.router.Match(other, &match) && match.MatchErr == nil {
			allowed = append(allowed, method)
		}
	}
	w.Header().Set("Allow", strings.Join(allowed, ", "))
	a.fail(w, failure{http.StatusMethodNotAllowed, "method", "this path has no such method"})
}

func (a *API) ready(w http.ResponseWriter, r *http.Request) {
	ctx, cancel := context.WithTimeout(r.Context(), 2*time.Second)
	defer cancel()
	if a.stopping.Load() {
		a.fail(w, failure{http.StatusServiceUnavailable, "stopping", "the service ends"})
	} else if err := a.service.Ping(ctx); err != nil {
		a.log.Error("not_ready", err)
		a.fail(w, failure{http.StatusServiceUnavailable, "store", "the store does not answer"})
	} else {
		writeText(w, "ready\n")
	}
}

// A request is one whose group's name has been read.
type request struct {
	*http.Request
	name string
	body []byte
}

type handler func(w http.ResponseWriter, r request) error

// question answers a request without a body.
func (a *API) question(h handler) http.HandlerFunc {
	return func(w http.ResponseWriter, r *http.Request) { a.answer(w, r, nil, a.busy, a.limits.Time, h) }
}

// download answers a request whose answer may be long. Such requests have places of their own, since a client may read slowly.
func (a *API) download(h handler) http.HandlerFunc {
	return func(w http.ResponseWriter, r *http.Request) { a.answer(w, r, nil, a.slow, a.limits.LongTime, h) }
}

// body answers a request with a body. The body is read before anything is taken that others might wait for. Those that may take long
// have places of their own, so that they do not keep messages out.
func (a *API) body(most int, places chan struct{}, limit time.Duration, h handler) http.HandlerFunc {
	return func(w http.ResponseWriter, r *http.Request) {
		body, err := a.read(w, r, most)
		defer a.bodies.Add(-int64(cap(body)))
		if err != nil {
			a.failed(w, "", err)
			return
		}
		a.answer(w, r, body, places, limit, h)
	}
}

// read reads a body. What it returns counts among the bodies in memory, also if there is an error.
func (a *API) read(w http.ResponseWriter, r *http.Request, most int) (body []byte, err error) {
	from := http.MaxBytesReader(w, r.Body, int64(most))
	if r.ContentLength > int64(most) {
		return nil, &http.MaxBytesError{Limit: int64(most)}
	}
	for {
		if len(body) == cap(body) {
			longer := make([]byte, len(body), 2*cap(body)+4096)
			if a.bodies.Add(int64(cap(longer)-cap(body))) > a.limits.Bodies {
				a.bodies.Add(int64(cap(body) - cap(longer)))
				return body, groups.ErrBusy
			}
			copy(longer, body)
			body = longer
		}
		count, err := from.Read(body[len(body):cap(body)])
		body = body[:len(body)+count]
		if err == io.EOF {
			return body, nil
		}
		if err != nil {
			var tooLong *http.MaxBytesError
			if errors.As(err, &tooLong) {
				return body, err
			}
			return body, failure{http.StatusBadRequest, "body", "the body has not come whole"}
		}
	}
}

// answer answers a request if one of the places is free, within a time.
func (a *API) answer(w http.ResponseWriter, r *http.Request, body []byte, places chan struct{}, limit time.Duration, h handler) {
	select {
	case places <- struct{}{}:
		defer func() { <-places }()
	default:
		a.failed(w, "", groups.ErrBusy)
		return
	}
	name, err := nameOf(r)
	if err == nil {
		ctx, cancel := context.WithTimeout(r.Context(), limit)
		defer cancel()
		err = h(w, request{r.WithContext(ctx), name, body})
	}
	if err != nil {
		a.failed(w, name, err)
	}
}

// nameOf returns the name of the group in the path: 1 to 255 bytes of UTF-8 without control characters.
func nameOf(r *http.Request) (string, error) {
	escaped, named := mux.Vars(r)["name"]
	if !named {
		return "", nil
	}
	name, err := url.PathUnescape(escaped)
	if err != nil || !groups.IsName(name) {
		return "", badRequest("name", "the name of a group has 1 to 255 bytes of UTF-8 without control characters, and is not . or ..")
	}
	return name, nil
}

// query returns the number that a parameter of the request has, or the number without it.
func (r request) query(name string, without, most uint64) (uint64, error) {
	text := r.URL.Query().Get(name)
	if text == "" {
		return without, nil
	}
	n, err := strconv.ParseUint(text, 10, 64)
	if err != nil || n > most {
		return 0, badRequest("parameter", fmt.Sprintf("%s is no number up to %d", name, most))
	}
	return n, nil
}

// choice returns the value of a parameter of the request, one of some, of which the first is that without it.
func (r request) choice(name string, values ...string) (string, error) {
	text := r.URL.Query().Get(name)
	if text == "" {
		return values[0], nil
	}
	for _, value := range values {
		if text == value {
			return text, nil
		}
	}
	return "", badRequest("parameter", fmt.Sprintf("%s is none of %s", name, strings.Join(values, ", ")))
}

var errEmpty = badRequest("empty", "the body is empty")

func nonEmpty(body []byte) error {
	if len(body) == 0 {
		return errEmpty
	}
	return nil
}

// bufferSize is how many bytes of an answer are written before its status is.
const bufferSize = 64 << 10

// stream has a function write an answer. If it fails after bytes were written, the connection is cut off, so that nobody takes a
// part for the whole.
func stream(w http.ResponseWriter, kind string, write func(io.Writer) error) error {
	w.Header().Set("Content-Type", kind)
	buffered := &buffer{to: w}
	if err := write(buffered); err != nil {
		if buffered.written {
			panic(http.ErrAbortHandler)
		}
		w.Header().Del("Content-Type")
		return err
	}
	_, err := w.Write(buffered.Bytes())
	if err != nil {
		panic(http.ErrAbortHandler)
	}
	return nil
}

type buffer struct {
	bytes.Buffer
	to      io.Writer
	written bool
}

func (b *buffer) Write(data []byte) (int, error) {
	count, _ := b.Buffer.Write(data)
	if b.Len() < bufferSize {
		return count, nil
	}
	b.written = true
	_, err := b.to.Write(b.Bytes())
	b.Reset()
	return count, err
}
