package itctrace

import (
	"context"
	"sync"
	"sync/atomic"
	"time"
)

// cancelled is the place where a context was cancelled, and the context above it, if nothing of the language may be done between the
// two. All below one context share a mutex, so that it is known which of them was cancelled first.
type cancelled struct {
	done  <-chan struct{}
	above *cancelled
	mutex *sync.Mutex
	token *token
}

type cancelledKey struct{}

var (
	cancelling = &what{hint: "cancel", giving: "cancel", taking: "see that it is cancelled"}
	afterwards = &what{hint: "after", giving: "wait for context", taking: "go on after context"}
)

// WithCancel gives a context that may be cancelled. Whoever sees by Done that it is cancelled comes after that. So does who sees it by a
// context of this package below it, or by one that only adds a value. Another context of the language below it gives no order, since it
// may have been done before.
func WithCancel(parent context.Context) (context.Context, context.CancelFunc) {
	return followed(parent, context.WithCancel)
}

// WithTimeout does the same with a context that has a timeout. Whoever sees that its time is over comes after nothing.
func WithTimeout(parent context.Context, timeout time.Duration) (context.Context, context.CancelFunc) {
	return WithDeadline(parent, time.Now().Add(timeout))
}

// WithDeadline does the same with a context that has a deadline.
func WithDeadline(parent context.Context, deadline time.Time) (context.Context, context.CancelFunc) {
	return followed(parent, func(parent context.Context) (context.Context, context.CancelFunc) {
		return context.WithDeadline(parent, deadline)
	})
}

type derive func(parent context.Context) (context.Context, context.CancelFunc)

func followed(parent context.Context, derived derive) (context.Context, context.CancelFunc) {
	own := &cancelled{mutex: &sync.Mutex{}}
	if above, isBelow := parent.Value(cancelledKey{}).(*cancelled); isBelow {
		own.mutex = above.mutex
		if parent.Done() == above.done {
			own.above = above
		}
	}
	ctx, cancel := derived(context.WithValue(parent, cancelledKey{}, own))
	own.done = ctx.Done()
	return ctx, func() {
		own.mutex.Lock()
		defer own.mutex.Unlock()
		if ctx.Err() == nil {
			own.token = markedHere(cancelling)
			cancel()
			if parent.Err() != nil || ctx.Err() != context.Canceled {
				own.token = nil // What is above, or the deadline, may have been faster.
			}
		}
	}
}

// markedHere makes a token for the place of this goroutine, at the line of the program that has called. It is nil without a trace.
func markedHere(called *what) *token {
	if !isOn() {
		return nil
	}
	return markOf(own(numberNow()), called, siteAbove())
}

// AfterFunc calls the function in a goroutine of its own once the context is done. It comes after the call of AfterFunc, and after the
// cancelling as with Done. What is given has it called no more, and tells whether that was in time.
func AfterFunc(ctx context.Context, body func()) (stop func() bool) {
	made, at := markedHere(afterwards), siteIfOn(0)
	var isDecided atomic.Bool
	stopped := make(chan struct{})
	go func() {
		select {
		case <-stopped:
		case <-ctx.Done():
			switch {
			case !isDecided.CompareAndSwap(false, true):
			case made != nil && isOn():
				as(tracing.stranger(nameOf(body)), false, func() {
					take(numberNow(), made, at)
					seeDone(ctx, numberNow(), at)
					body()
				})
			default:
				body()
			}
		}
	}()
	return func() bool {
		isStopped := ctx.Err() == nil && isDecided.CompareAndSwap(false, true)
		if isStopped {
			dropped(made)
			close(stopped)
		}
		return isStopped
	}
}

// Done waits until the context is done, and tells why.
//
//go:noinline
func Done(ctx context.Context) error {
	goroutine, counter := here()
	<-ctx.Done()
	return seeDone(ctx, goroutine, siteIfOn(counter))
}

// seeDone comes after the cancelling of the lowest context that was cancelled: the others above it came too late, or it before them.
func seeDone(ctx context.Context, goroutine uint64, at *site) error {
	one, _ := ctx.Value(cancelledKey{}).(*cancelled)
	if one == nil || one.done != ctx.Done() || ctx.Err() != context.Canceled {
		return ctx.Err()
	}
	one.mutex.Lock()
	defer one.mutex.Unlock()
	for ; one != nil; one = one.above {
		if one.token != nil {
			take(goroutine, one.token, at)
			break
		}
	}
	return ctx.Err()
}
