package events

import (
	"bytes"
	"encoding/json"
	"errors"
	"strings"
	"testing"
)

// Each event is one line of JSON, whatever its values are.
func TestLines(t *testing.T) {
	var lines bytes.Buffer
	log := New(&lines)
	log.Info("refused", "group", "a\n{\"level\":\"ERROR\"}\n", "rule", 7)
	log.Error("fault", errors.New("x\ny\""), "group", "\u2028\xff\x00")
	log.Logger("http").Printf("x\n%s", "{}")
	got := strings.Split(strings.TrimSuffix(lines.String(), "\n"), "\n")
	if len(got) != 3 {
		t.Fatal(got)
	}
	for i, want := range []map[string]any{
		{"level": "INFO", "msg": "refused", "group": "a\n{\"level\":\"ERROR\"}\n", "rule": 7.0},
		{"level": "ERROR", "msg": "fault", "err": "x\ny\"", "group": "\u2028\ufffd\x00"},
		{"level": "ERROR", "msg": "http", "err": "x\n{}"},
	} {
		var line map[string]any
		if err := json.Unmarshal([]byte(got[i]), &line); err != nil {
			t.Fatal(err, got[i])
		}
		for name, value := range want {
			if line[name] != value {
				t.Errorf("%s: %q, and not %q", name, line[name], value)
			}
		}
		if line["time"] == nil {
			t.Error("no time")
		}
	}
}
