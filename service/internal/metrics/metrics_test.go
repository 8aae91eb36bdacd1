package metrics

import (
	"net/http/httptest"
	"strings"
	"testing"
	"time"
)

// Each metric has a name, a help and what was counted.
func TestHandler(t *testing.T) {
	m := New()
	m.Phase(Verify, time.Millisecond)
	m.Load(time.Second)
	m.State(time.Second)
	m.Batch(3)
	m.Signatures(2)
	m.Verdict(7, "BadSignature")
	m.Verdict(0, "accepted")
	m.Response(503)
	m.Faults.Inc()
	w := httptest.NewRecorder()
	m.Handler().ServeHTTP(w, httptest.NewRequest("GET", "/metrics", nil))
	for _, line := range []string{
		`mlscheckd_phase_seconds_sum{phase="verify"} 0.001`, `mlscheckd_phase_seconds_count{phase="verify"} 1`,
		`mlscheckd_load_seconds_count 1`, `mlscheckd_state_seconds_count 1`, `mlscheckd_batch_changes_bucket{le="4"} 1`,
		`mlscheckd_batch_changes_bucket{le="2"} 0`, `mlscheckd_signatures_total 2`,
		`mlscheckd_verdicts_total{name="BadSignature",rule="7"} 1`, `mlscheckd_verdicts_total{name="accepted",rule="0"} 1`,
		`mlscheckd_responses_total{status="503"} 1`, `mlscheckd_faults_total 1`, `mlscheckd_undos_total 0`, `mlscheckd_groups_bytes 0`,
	} {
		if !strings.Contains(w.Body.String(), line+"\n") {
			t.Error(line)
		}
	}
}
