package itctrace

import (
	"context"
	"fmt"
	"sync"
)

// Group runs functions in goroutines of their own, and waits for all of them, as that of golang.org/x/sync/errgroup does. The first error
// is kept, and cancels the context of the group. Its zero value is ready.
type Group struct {
	cancel  context.CancelFunc
	waiting WaitGroup
	room    *Chan[struct{}]
	once    sync.Once
	fault   error
}

// GroupWithContext makes a group, and a context that is cancelled by its first error, or once all of it was waited for.
func GroupWithContext(ctx context.Context) (*Group, context.Context) {
	ctx, cancel := WithCancel(ctx)
	return &Group{cancel: cancel}, ctx
}

// SetLimit has so many goroutines run at most. Without a limit, or with a negative one, all run.
func (g *Group) SetLimit(most int) {
	if most < 0 {
		g.room = nil
		return
	}
	if g.room != nil && g.room.Len() != 0 {
		panic(fmt.Errorf("itctrace: the limit is changed while %d goroutines of the group run", g.room.Len()))
	}
	g.room = MakeChan[struct{}](most)
}

// Go runs the function in a goroutine. If as many run as may, it waits for the end of one.
//
//go:noinline
func (g *Group) Go(body func() error) {
	goroutine, counter := here()
	if g.room != nil {
		g.room.Send(struct{}{})
	}
	g.start(body, goroutine, counter)
}

// TryGo does so only if it need not wait, and tells whether it does.
//
//go:noinline
func (g *Group) TryGo(body func() error) bool {
	goroutine, counter := here()
	if g.room != nil && !g.room.TrySend(struct{}{}) {
		return false
	}
	g.start(body, goroutine, counter)
	return true
}

func (g *Group) start(body func() error, goroutine uint64, counter uintptr) {
	g.waiting.Add(1)
	run := func(context.Context) {
		defer g.waiting.Done()
		defer func() {
			if g.room != nil {
				g.room.Receive()
			}
		}()
		if fault := body(); fault != nil {
			g.once.Do(func() {
				g.fault = fault
				if g.cancel != nil {
					g.cancel()
				}
			})
		}
	}
	if !isOn() {
		go run(context.Background())
		return
	}
	startedBy(own(goroutine), context.Background(), run, nameOf(body), siteAt(counter), nil)
}

// Wait waits for all functions, and gives the first error. Whoever has waited comes after all of them.
func (g *Group) Wait() error {
	g.waiting.Wait()
	if g.cancel != nil {
		g.cancel()
	}
	return g.fault
}
