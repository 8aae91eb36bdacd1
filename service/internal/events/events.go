// Package events writes a JSON line for each event that an operator may want to know of: a refusal, an undo, a fault.
package events

import (
	"errors"
	"io"
	"log"
	"strings"
)

// A Log writes events. It is safe for use by several goroutines.
type Log struct{ logger logger }

// New returns a Log that writes lines to w.
func New(w io.Writer) *Log { return &Log{newLogger(w)} }

// Info writes an event with pairs of names and values.
func (l *Log) Info(event string, pairs ...any) { l.logger.Info(event, pairs...) }

// Error writes an event that an operator should look at.
func (l *Log) Error(event string, err error, pairs ...any) { l.error(event, err, pairs) }

// Logger returns a logger of the standard library, for those who write lines to one. Each line is an error of this event.
func (l *Log) Logger(event string) *log.Logger { return log.New(lines{l, event}, "", 0) }

type lines struct {
	log   *Log
	event string
}

func (l lines) Write(line []byte) (int, error) {
	l.log.Error(l.event, errors.New(strings.TrimSuffix(string(line), "\n")))
	return len(line), nil
}
