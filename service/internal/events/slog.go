//go:build go1.21

package events

import (
	"io"
	"log/slog"
)

type logger = *slog.Logger

func newLogger(w io.Writer) logger { return slog.New(slog.NewJSONHandler(w, nil)) }

func (l *Log) error(event string, err error, pairs []any) {
	l.logger.Error(event, append([]any{"err", err.Error()}, pairs...)...)
}
