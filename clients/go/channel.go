package itctrace

import (
	"context"
	"sync"
)

var (
	item    = &what{hint: "item", giving: "send", taking: "receive"}
	receipt = &what{hint: "receipt", giving: "receive", taking: "is received"}
	closing = &what{hint: "closed", giving: "close channel", taking: "see the end of the channel"}
)

// Chan is a channel whose messages carry the order. Whoever receives one comes after its sending. A sender comes after the receipt that
// made room for it, and without room after the receipt of its own message. A nil one is as a nil channel of the language.
type Chan[T any] struct {
	items  chan carried[T]
	room   chan *token
	ended  chan struct{}
	ending sync.Mutex
	closed *token
}

type carried[T any] struct {
	value   T
	token   *token
	receipt chan *token
}

// MakeChan makes a channel that holds so many messages.
func MakeChan[T any](size int) *Chan[T] {
	made := &Chan[T]{items: make(chan carried[T], size), room: make(chan *token, size), ended: make(chan struct{})}
	for place := 0; place < size; place++ {
		made.room <- nil
	}
	return made
}

func (c *Chan[T]) channel() chan carried[T] {
	if c == nil {
		return nil
	}
	return c.items
}

// roomOf is where a place in the buffer is taken from. It is nil if the channel has no buffer.
func (c *Chan[T]) roomOf() chan *token {
	if c == nil || cap(c.items) == 0 {
		return nil
	}
	return c.room
}

func (c *Chan[T]) endedOf() chan struct{} {
	if c == nil {
		return nil
	}
	return c.ended
}

// handed is where a message is handed over to whoever receives. It is nil if the channel has a buffer.
func (c *Chan[T]) handed() chan carried[T] {
	if c == nil || cap(c.items) > 0 {
		return nil
	}
	return c.items
}

// offered is a message that may be sent without a buffer.
func (c *Chan[T]) offered(value T, goroutine uint64, at *site) carried[T] {
	if c.handed() == nil {
		return carried[T]{value: value}
	}
	return carried[T]{value, marked(goroutine, item, at), make(chan *token, 1)}
}

// put puts a message into the buffer, after the receipt that has made room for it.
func (c *Chan[T]) put(value T, made *token, goroutine uint64, at *site) {
	takeAlone(goroutine, made, at)
	c.items <- carried[T]{value, marked(goroutine, item, at), nil}
}

// seenClosed panics, as a channel of the language does.
func (c *Chan[T]) seenClosed() { panic("send on closed channel") }

// Send sends. It panics if the channel is closed, as with one of the language.
//
//go:noinline
func (c *Chan[T]) Send(value T) {
	goroutine, counter := here()
	at := siteIfOn(counter)
	given := c.offered(value, goroutine, at)
	select {
	case c.handed() <- given:
		takeAlone(goroutine, <-given.receipt, at)
	case made := <-c.roomOf():
		c.put(value, made, goroutine, at)
	case <-c.endedOf():
		c.seenClosed()
	}
}

// TrySend sends if that can be done at once, and tells whether it has.
//
//go:noinline
func (c *Chan[T]) TrySend(value T) bool {
	goroutine, counter := here()
	at := siteIfOn(counter)
	if c.isEnded() {
		c.seenClosed()
	}
	given := c.offered(value, goroutine, at)
	select {
	case c.handed() <- given:
		takeAlone(goroutine, <-given.receipt, at)
	case made := <-c.roomOf():
		c.put(value, made, goroutine, at)
	default:
		dropped(given.token)
		return false
	}
	return true
}

// SendOr sends, or tells why the context is done.
//
//go:noinline
func (c *Chan[T]) SendOr(ctx context.Context, value T) error {
	goroutine, counter := here()
	at := siteIfOn(counter)
	given := c.offered(value, goroutine, at)
	select {
	case c.handed() <- given:
		takeAlone(goroutine, <-given.receipt, at)
	case made := <-c.roomOf():
		c.put(value, made, goroutine, at)
	case <-c.endedOf():
		c.seenClosed()
	case <-ctx.Done():
		dropped(given.token)
		return seeDone(ctx, goroutine, at)
	}
	return nil
}

func (c *Chan[T]) isEnded() bool {
	select {
	case <-c.endedOf():
		return true
	default:
		return false
	}
}

// Receive receives. It tells whether there was a message: none comes once the channel is closed and empty.
//
//go:noinline
func (c *Chan[T]) Receive() (T, bool) {
	goroutine, counter := here()
	given, isThere := <-c.channel()
	return c.taken(given, isThere, goroutine, siteIfOn(counter))
}

// TryReceive receives if a message is there at once.
//
//go:noinline
func (c *Chan[T]) TryReceive() (T, bool) {
	goroutine, counter := here()
	select {
	case given, isThere := <-c.channel():
		return c.taken(given, isThere, goroutine, siteIfOn(counter))
	default:
		var none T
		return none, false
	}
}

// ReceiveOr receives, or tells why the context is done.
//
//go:noinline
func (c *Chan[T]) ReceiveOr(ctx context.Context) (T, bool, error) {
	goroutine, counter := here()
	select {
	case given, isThere := <-c.channel():
		value, isThere := c.taken(given, isThere, goroutine, siteIfOn(counter))
		return value, isThere, nil
	case <-ctx.Done():
		var none T
		return none, false, seeDone(ctx, goroutine, siteIfOn(counter))
	}
}

// Range calls the function for each message until the channel is closed and empty, or until the function gives false. Where the language
// has ranges over functions, this is one: for value := range channel.Range { .. }.
//
//go:noinline
func (c *Chan[T]) Range(look func(value T) bool) {
	goroutine, counter := here()
	for {
		given, isThere := <-c.channel()
		value, isThere := c.taken(given, isThere, goroutine, siteIfOn(counter))
		if !isThere || !look(value) {
			return
		}
	}
}

// Len is how many messages are in the channel, and Cap how many it has room for.
func (c *Chan[T]) Len() int { return len(c.channel()) }

// Cap is how many messages the channel has room for.
func (c *Chan[T]) Cap() int { return cap(c.channel()) }

func (c *Chan[T]) taken(given carried[T], isThere bool, goroutine uint64, at *site) (T, bool) {
	if !isThere {
		take(goroutine, c.closed, at)
		return given.value, false
	}
	takeAlone(goroutine, given.token, at)
	switch made := marked(goroutine, receipt, at); {
	case given.receipt != nil:
		given.receipt <- made
	default:
		c.room <- made
	}
	return given.value, true
}

// siteIfOn is the line with this counter, if there is a trace.
func siteIfOn(counter uintptr) *site {
	if !isOn() {
		return nowhere
	}
	return siteAt(counter)
}

// Close closes it. Whoever sees the end comes after that. It panics if the channel is closed, as with one of the language.
//
//go:noinline
func (c *Chan[T]) Close() {
	goroutine, counter := here()
	if c == nil {
		panic("close of nil channel")
	}
	c.ending.Lock()
	defer c.ending.Unlock()
	if !c.isEnded() { // What closed it first is kept.
		c.closed = marked(goroutine, closing, siteIfOn(counter))
	}
	close(c.items)
	close(c.ended)
}
