// Package metrics counts and times what the service does, for Prometheus.
package metrics

import (
	"net/http"
	"strconv"
	"time"

	"github.com/prometheus/client_golang/prometheus"
	"github.com/prometheus/client_golang/prometheus/collectors"
	"github.com/prometheus/client_golang/prometheus/promhttp"
)

// The phases of a handshake.
const (
	Verify = "verify" // its signatures, by libcrypto
	Judge  = "judge"  // the library's calls
	Store  = "store"  // until the row is durable
	Total  = "total"
)

// Metrics are those of one service.
type Metrics struct {
	registry   *prometheus.Registry
	phases     *prometheus.HistogramVec
	loads      prometheus.Histogram
	states     prometheus.Histogram
	batches    prometheus.Histogram
	signatures prometheus.Counter
	verdicts   *prometheus.CounterVec
	responses  *prometheus.CounterVec

	Repeats, Conflicts, Undos, Evictions, Faults prometheus.Counter
	Groups, Bytes                                prometheus.Gauge
}

// New returns metrics that have counted nothing.
func New() *Metrics {
	seconds := prometheus.ExponentialBuckets(20e-6, 2, 20)
	histogram := func(name, help string, buckets []float64) prometheus.Histogram {
		return prometheus.NewHistogram(prometheus.HistogramOpts{Namespace: "mlscheckd", Name: name, Help: help, Buckets: buckets})
	}
	counter := func(name, help string) prometheus.Counter {
		return prometheus.NewCounter(prometheus.CounterOpts{Namespace: "mlscheckd", Name: name, Help: help})
	}
	gauge := func(name, help string) prometheus.Gauge {
		return prometheus.NewGauge(prometheus.GaugeOpts{Namespace: "mlscheckd", Name: name, Help: help})
	}
	m := &Metrics{
		registry: prometheus.NewRegistry(),
		phases: prometheus.NewHistogramVec(prometheus.HistogramOpts{Namespace: "mlscheckd", Name: "phase_seconds",
			Help: "How long the phases of a handshake took.", Buckets: seconds}, []string{"phase"}),
		loads:      histogram("load_seconds", "How long groups took to load from the store.", seconds),
		states:     histogram("state_seconds", "How long states took to be taken.", seconds),
		batches:    histogram("batch_changes", "Changes in a transaction of SQLite's writer.", prometheus.ExponentialBuckets(1, 2, 10)),
		signatures: counter("signatures_total", "Signatures that were verified."),
		verdicts: prometheus.NewCounterVec(prometheus.CounterOpts{Namespace: "mlscheckd", Name: "verdicts_total",
			Help: "Handshakes that were answered, by rule; rule 0 is accepted."}, []string{"rule", "name"}),
		responses: prometheus.NewCounterVec(prometheus.CounterOpts{Namespace: "mlscheckd", Name: "responses_total",
			Help: "Requests that were answered, by status."}, []string{"status"}),
		Repeats:   counter("repeats_total", "Handshakes that had been accepted before."),
		Conflicts: counter("conflicts_total", "Handshakes that were judged again, since the log had grown."),
		Undos:     counter("undos_total", "Commits that were undone."),
		Evictions: counter("evictions_total", "Groups that were let go from memory."),
		Faults:    counter("faults_total", "Requests without an answer, for a fault."),
		Groups:    gauge("groups_in_memory", "Groups in memory."),
		Bytes:     gauge("groups_bytes", "About how many bytes the groups in memory hold."),
	}
	m.registry.MustRegister(m.phases, m.loads, m.states, m.batches, m.signatures, m.verdicts, m.responses, m.Repeats,
		m.Conflicts, m.Undos, m.Evictions, m.Faults, m.Groups, m.Bytes, collectors.NewGoCollector(),
		collectors.NewProcessCollector(collectors.ProcessCollectorOpts{}))
	return m
}

// Phase notes how long a phase of a handshake took.
func (m *Metrics) Phase(name string, took time.Duration) {
	m.phases.WithLabelValues(name).Observe(took.Seconds())
}

// Load notes how long a group took to load.
func (m *Metrics) Load(took time.Duration) { m.loads.Observe(took.Seconds()) }

// State notes how long a state took.
func (m *Metrics) State(took time.Duration) { m.states.Observe(took.Seconds()) }

// Batch notes how many changes a transaction had.
func (m *Metrics) Batch(count int) { m.batches.Observe(float64(count)) }

// Signatures notes how many signatures were verified.
func (m *Metrics) Signatures(count int) { m.signatures.Add(float64(count)) }

// Verdict counts an answer by the number of its rule, or 0 if the message was accepted, and the name.
func (m *Metrics) Verdict(rule uint32, name string) {
	m.verdicts.WithLabelValues(strconv.FormatUint(uint64(rule), 10), name).Inc()
}

// Response counts an answer by its status.
func (m *Metrics) Response(status int) { m.responses.WithLabelValues(strconv.Itoa(status)).Inc() }

// Handler answers in the format of Prometheus.
func (m *Metrics) Handler() http.Handler {
	return promhttp.HandlerFor(m.registry, promhttp.HandlerOpts{MaxRequestsInFlight: 4})
}
