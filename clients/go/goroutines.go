package itctrace

import (
	"context"
	"runtime"
	"runtime/pprof"
)

// label is the label of pprof that names the task of a goroutine.
const label = "task"

// Routine is a goroutine whose start and end are reported.
type Routine struct {
	task *task
	done chan struct{}
}

// Go starts a goroutine, which comes after what its starter did before. Its task is named by the label "task" that pprof has in the
// context, or by its function. It has this label itself.
//
//go:noinline
func Go(ctx context.Context, body func(ctx context.Context)) *Routine {
	goroutine, counter := here()
	if !isOn() {
		routine := &Routine{done: make(chan struct{})}
		go func() {
			defer close(routine.done)
			body(ctx)
		}()
		return routine
	}
	routine := &Routine{done: make(chan struct{})}
	routine.task = startedBy(own(goroutine), ctx, body, nameOf(body), siteAt(counter), routine.done)
	if tracing.hasParts {
		runtime.SetFinalizer(routine, func(gone *Routine) { tracing.leave(gone.task) })
	}
	return routine
}

// startedBy starts a goroutine, and closes done at its end. Nobody waits for its task if that is nil.
func startedBy(
	parent *task, ctx context.Context, body func(ctx context.Context), hint string, at *site, done chan<- struct{},
) *task {
	if named, isNamed := pprof.Label(ctx, label); isNamed && named != parent.name {
		hint = named
	}
	child := tracing.spawn(parent, hint, at)
	go func() {
		if done != nil {
			defer close(done)
		}
		pprof.Do(ctx, pprof.Labels(label, child.name), func(ctx context.Context) {
			as(child, done != nil, func() { body(ctx) })
		})
	}()
	return child
}

// as does this as the task, which ends with it.
func as(made *task, isAwaited bool, body func()) {
	number := numberNow()
	before := known(number)
	become(number, made)
	isDone := false
	defer func() {
		switch {
		case phase.Load() != isTracing:
		case isDone:
			tracing.end(made, isAwaited)
		default: // It panics, which may end the process, or has called Goexit.
			tracing.end(made, isAwaited)
			tracing.flush(answerWait)
		}
		become(number, before)
	}()
	body()
	isDone = true
}

// Named gives a context by which the next goroutine is named.
func Named(ctx context.Context, name string) context.Context {
	return pprof.WithLabels(ctx, pprof.Labels(label, name))
}

// Wait waits for the end of the goroutine, and comes after it.
//
//go:noinline
func (r *Routine) Wait() {
	goroutine, counter := here()
	<-r.done
	if r.task != nil && isOn() {
		tracing.join(own(goroutine), r.task, siteAt(counter))
	}
	runtime.KeepAlive(r) // Else nobody may be told to wait for it any more.
}
