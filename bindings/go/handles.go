package odfilter

import (
	"runtime"
	"sync/atomic"
)

// A shared handle is freed by its last user: its owner, a call under way, or a judge that reads the filter.
type shared struct {
	at    handle
	users atomic.Int64
	// what this handle needs, released when it is freed
	under *shared
}

// acquire counts one more user, unless the handle was freed.
func (s *shared) acquire() bool {
	for {
		count := s.users.Load()
		if count == 0 {
			return false
		}
		if s.users.CompareAndSwap(count, count+1) {
			return true
		}
	}
}

func (s *shared) release() {
	if s.users.Add(-1) > 0 {
		return
	}
	free(s.at)
	if s.under != nil {
		s.under.release()
	}
}

// An owner is what a Schema, a Type, a Filter and a Judge have in common: a handle, until they are closed.
type owner struct {
	shared *shared
	closed atomic.Bool
}

// own takes over a handle that a call made, which is released when the owner is closed or collected.
func own(made handle, under *shared) *owner {
	o := &owner{shared: &shared{at: made, under: under}}
	o.shared.users.Store(1)
	runtime.SetFinalizer(o, (*owner).Close)
	return o
}

// use returns the handle for a call, which releases it afterwards: it is not freed meanwhile, whoever closes its owner.
func (o *owner) use() (*shared, error) {
	if o == nil || o.closed.Load() || !o.shared.acquire() {
		return nil, ErrClosed
	}
	return o.shared, nil
}

// Close frees what is held, once no call uses it. A second time it does nothing. It always returns nil.
func (o *owner) Close() error {
	if o != nil && !o.closed.Swap(true) {
		runtime.SetFinalizer(o, nil)
		o.shared.release()
	}
	return nil
}

// written returns the text that a call writes into a buffer, which grows to the length that the call asks for.
func written(call func(text []byte, a *answer) status) ([]byte, error) {
	text, a := make([]byte, 256), new(answer)
	for {
		switch s := call(text, a); s {
		case statusOK:
			return text[:a.length], nil
		case statusTooSmall:
			text = make([]byte, a.length)
		default:
			return nil, errorOf(s, "")
		}
	}
}

// Version returns the version of the C library.
func Version() string {
	text, _ := written(version)
	return string(text)
}
