package itctrace

import "time"

// Timer calls a function later, as time.AfterFunc does.
type Timer struct {
	timer *time.Timer
	set   chan *token // What the next call comes after.
}

var setting = &what{hint: "timer", giving: "set timer", taking: "timer is over"}

// TimeAfterFunc calls the function in a goroutine of its own after this time. It comes after the call of TimeAfterFunc, or of Reset.
//
//go:noinline
func TimeAfterFunc(after time.Duration, body func()) *Timer {
	goroutine, counter := here()
	made := &Timer{set: make(chan *token, 1)}
	at := siteIfOn(counter)
	made.set <- marked(goroutine, setting, at)
	made.timer = time.AfterFunc(after, func() {
		var given *token
		select {
		case given = <-made.set:
		default: // It was set again by another goroutine at the same time, and is over once more.
		}
		if !isOn() {
			body()
			return
		}
		as(tracing.stranger(nameOf(body)), false, func() {
			takeAlone(numberNow(), given, at)
			body()
		})
	})
	return made
}

// Stop has the function be called no more, and tells whether that was in time.
func (t *Timer) Stop() bool { return t.timer.Stop() }

// Reset has the function be called after this time from now on, and tells whether it would have been called else.
//
//go:noinline
func (t *Timer) Reset(after time.Duration) bool {
	goroutine, counter := here()
	isStopped := t.timer.Stop()
	select {
	case gone := <-t.set:
		dropped(gone)
	default:
	}
	select {
	case t.set <- marked(goroutine, setting, siteIfOn(counter)):
	default: // Another goroutine has set it at the same time.
	}
	t.timer.Reset(after)
	return isStopped
}
