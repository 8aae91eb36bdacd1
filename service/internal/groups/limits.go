package groups

import (
	"errors"
	"fmt"
	"time"
)

// Limits are what a message, a group and the service may have at most. docs/SERVICE.md says why.
type Limits struct {
	Message  int           // bytes of a message
	Proposal int           // bytes of a proposal
	Context  int           // bytes of a GroupContext at a start, and of a GroupContextExtensions proposal
	Pending  int           // proposals of an epoch
	Adds     int           // Add proposals of a commit
	Members  int           // members of a group
	Bytes    int64         // bytes of all groups in memory, about
	Starts   int           // starts at a time
	Waiting  int           // requests that wait for one group
	Store    time.Duration // how long the store may take to store a row
}

// DefaultLimits are those of a service without flags.
var DefaultLimits = Limits{
	Message:  1 << 20,
	Proposal: 64 << 10,
	Context:  16 << 10,
	Pending:  1000,
	Adds:     1000,
	Members:  100000,
	Bytes:    1 << 30,
	Starts:   2,
	Waiting:  64,
	Store:    5 * time.Second,
}

// A LimitError says which limit a message or a group is over.
type LimitError struct {
	What  string
	Limit int
}

func (l LimitError) Error() string { return fmt.Sprintf("more than %d %s", l.Limit, l.What) }

var (
	// ErrOutside says that the sender is outside the group, and that the service in front has not allowed it.
	ErrOutside = errors.New("the sender is outside the group, and the request does not allow this")

	// ErrOtherStart says that the group of this name was started from something else.
	ErrOtherStart = errors.New("the group of this name was started from another GroupInfo or tree, or by other options")

	// ErrBusy says that the service does what it can, and that the request may be made again.
	ErrBusy = errors.New("the service is busy")
)

// over returns a LimitError if a number is over a limit.
func over(number int, what string, limit int) error {
	if number > limit {
		return LimitError{what, limit}
	}
	return nil
}
