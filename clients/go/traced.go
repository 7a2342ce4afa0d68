package itctrace

import (
	"fmt"
	"os"
	"sync"
	"sync/atomic"
	"time"
)

const (
	// notBegun is before the first call of this package.
	notBegun = iota
	isUntraced
	isTracing
	// isEnded is after End: what is noted from then on is not seen.
	isEnded
)

// grace is how long a goroutine waits that goes on after End, before that is told. The process ends within this time if main has ended.
const grace = time.Second

var (
	tracing *tracer
	begun   sync.Once
	phase   atomic.Int32
	endedBy atomic.Uint64
	late    sync.Once
)

// Trace is the trace of this process.
type Trace struct{}

// Begin begins to report where the environment says. If it names no port, nothing is reported. The trace may end before the program
// does, as when it is full. Then one line on standard error says so, and the program goes on. `defer itctrace.Begin().End()` at the
// beginning of main is all that is needed. The first other call of this package begins by itself.
func Begin() Trace {
	begun.Do(func() {
		environment, err := readEnvironment()
		var made *tracer
		if err == nil && environment != nil {
			lookWhereWeAre()
			made, err = newTracer(environment)
		}
		if err != nil {
			fmt.Fprintf(os.Stderr, "itc_trace: nothing is traced: %v\n", err)
		}
		if made == nil {
			phase.Store(isUntraced)
			return
		}
		tracing = made
		become(numberOf(), tracing.main)
		tracing.start()
		phase.Store(isTracing)
	})
	return Trace{}
}

// End reports what was noted, and writes the journal's last line. What the program does afterwards is not seen: if it goes on, one line
// says so, and the run counts as not seen whole.
func (Trace) End() {
	if phase.CompareAndSwap(isTracing, isEnded) {
		endedBy.Store(numberOf())
		time.Sleep(rest) // Whoever is about to note something is done then.
		tracing.close()
	} else if tracing != nil {
		tracing.awaitLastRow() // If it was given up just now, the journal says why.
	}
}

// Exit ends the trace and the process, as os.Exit does without the trace.
func Exit(status int) {
	Begin().End()
	os.Exit(status)
}

// Flush waits until what was noted by now is in the journal. It is for a program that may be about to end by other means than End.
func Flush() {
	if isOn() {
		tracing.flush(answerWait)
	}
}

func isOn() bool { return phase.Load() == isTracing || isOnAfterAll() }

func isOnAfterAll() bool {
	switch phase.Load() {
	case notBegun:
		Begin()
		return phase.Load() == isTracing
	case isEnded:
		tellLate(siteAbove())
	}
	return false
}

// tellLate tells that the trace has ended before the program. If another goroutine than the one that called End goes on, it waits first:
// the process may be about to end, which ends this goroutine, too.
func tellLate(at *site) {
	if numberOf() != endedBy.Load() {
		time.Sleep(grace)
	}
	late.Do(func() {
		where := ""
		if at.file != nil {
			where = fmt.Sprintf(", from %s:%d on", *at.file, at.line)
		}
		reason := "the trace ended before the program" + where + ": let main begin with defer itctrace.Begin().End()"
		fmt.Fprintf(os.Stderr, "itc_trace: %s\n", reason)
		if tracing.journal != nil {
			tracing.journal.WriteString(unseenRow(causeTracer, reason))
		}
		phase.Store(isUntraced)
	})
}

// Touch notes that this goroutine reads or writes the thing, which is of this process, at the line that calls this.
//
//go:noinline
func Touch(thing string, writes bool) {
	if goroutine, counter := here(); isOn() {
		own(goroutine).touch(touch{thing: thing, site: siteAt(counter), writes: writes})
	}
}

// TouchAcross is the same of a thing that all processes call by this name, as a file.
//
//go:noinline
func TouchAcross(thing string, writes bool) {
	if goroutine, counter := here(); isOn() {
		own(goroutine).touch(touch{thing: thing, site: siteAt(counter), writes: writes, isAcross: true})
	}
}

// Outgoing gives the name of a new message from here, or none without a trace: hand it to another process, which calls Incoming with it.
//
//go:noinline
func Outgoing() string {
	goroutine, counter := here()
	if !isOn() {
		return ""
	}
	return outgoing(own(goroutine), "to another process", siteAt(counter))
}

func outgoing(of *task, carried string, at *site) string {
	sent := tracing.send(of, tracing.outside(), carried, at)
	if !tracing.has(sent) {
		return ""
	}
	return sent.name
}

// Incoming has this goroutine come after the place where the message was sent. What is no message is passed over.
//
//go:noinline
func Incoming(message string) {
	if goroutine, counter := here(); isOn() && isName(message) {
		tracing.incoming(own(goroutine), message, "receive from another process", siteAt(counter))
	}
}

func isName(message string) bool {
	for _, next := range message {
		if !isLetterOrDigit(next) && next != '_' {
			return false
		}
	}
	return message != "" && len(message) <= mostName
}
