//go:build !go1.21

package events

import (
	"io"

	"golang.org/x/exp/slog"
)

type logger = slog.Logger

func newLogger(w io.Writer) logger { return slog.New(slog.NewJSONHandler(w)) }

func (l *Log) error(event string, err error, pairs []any) { l.logger.Error(event, err, pairs...) }
