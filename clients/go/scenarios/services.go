package main

import (
	"context"
	"fmt"
	"runtime"
	"time"

	"hometturi.example/itctrace"
)

func init() {
	for name, program := range map[string]func(isRaced bool){
		"fan_out": fanOut, "buffers": buffers, "broker": broker, "flight": flight, "actor": actor, "batches": batches,
		"double_checked": doubleChecked, "ring": ring, "promise": promise, "quit": quit, "leased": leased, "copy_on_write": copyOnWrite,
		"deadline": deadline,
	} {
		programs[name] = program
	}
}

// fanOut has a group of which two run at a time. Its last cell is read before all are done if there is a race.
func fanOut(isRaced bool) {
	var group itctrace.Group
	group.SetLimit(2)
	for number := 0; number < 6; number++ {
		cell := fmt.Sprint("cell ", number)
		group.Go(func() error {
			itctrace.Touch(cell, true) // race: fan_out
			return nil
		})
	}
	if isRaced {
		itctrace.Touch("cell 5", false) // race: fan_out
	}
	if group.Wait() != nil {
		panic("it failed")
	}
	for number := 0; number < 6; number++ {
		itctrace.Touch(fmt.Sprint("cell ", number), false)
	}
}

type buffer struct{ name string }

// buffers are used by one at a time, who gives them back to a pool. If there is a race, one is used by whoever has given it back.
func buffers(isRaced bool) {
	var pool itctrace.Pool
	var made itctrace.AtomicInt32
	pool.New = func() any { return &buffer{fmt.Sprint("buffer ", made.Add(1))} }
	wait(many(4, func(int) {
		for turn := 0; turn < 20; turn++ {
			own := pool.Get().(*buffer)
			itctrace.Touch(own.name, true)
			runtime.Gosched()
			pool.Put(own)
		}
	}))
	if isRaced {
		own := pool.Get().(*buffer)
		user := start(func() {
			itctrace.Touch(own.name, true) // race: buffers
		})
		pool.Put(own)
		itctrace.Touch(own.name, true) // race: buffers
		user.Wait()
	}
}

// broker hands each piece of news to all who have subscribed. If there is a race, it changes what it has handed on.
func broker(isRaced bool) {
	var lock itctrace.RWMutex
	var subscribers []*itctrace.Chan[string]
	var readers []*itctrace.Routine
	for number := 0; number < 3; number++ {
		own := itctrace.MakeChan[string](1)
		lock.Lock()
		subscribers = append(subscribers, own)
		lock.Unlock()
		readers = append(readers, start(func() {
			own.Range(func(news string) bool {
				itctrace.Touch(news, false) // race: broker
				return true
			})
		}))
	}
	for _, news := range []string{"monday", "tuesday"} {
		itctrace.Touch(news, true)
		lock.RLock()
		for _, one := range subscribers {
			one.Send(news)
		}
		lock.RUnlock()
	}
	if isRaced {
		itctrace.Touch("tuesday", true) // race: broker
	}
	lock.Lock()
	for _, one := range subscribers {
		one.Close()
	}
	lock.Unlock()
	wait(readers)
}

// flight has several ask for an answer that one of them works out. One who does not wait for it reads it if there is a race.
func flight(isRaced bool) {
	var lock itctrace.Mutex
	var running *itctrace.WaitGroup
	ask := func() {
		lock.Lock()
		if known := running; known != nil {
			lock.Unlock()
			known.Wait()
			return
		}
		own := &itctrace.WaitGroup{}
		own.Add(1)
		running = own
		lock.Unlock()
		itctrace.Touch("answer", true) // race: flight
		own.Done()
	}
	routines := many(4, func(int) {
		ask()
		itctrace.Touch("answer", false)
	})
	if isRaced {
		itctrace.Touch("answer", false) // race: flight
	}
	wait(routines)
}

type question struct {
	amount int
	answer *itctrace.Chan[int]
}

// actor has a balance that nobody else touches: it is asked by a channel, and answers by another one.
func actor(isRaced bool) {
	questions := itctrace.MakeChan[question](0)
	owner := start(func() {
		balance := 0
		questions.Range(func(asked question) bool {
			itctrace.Touch("balance", false)
			itctrace.Touch("balance", true) // race: actor
			balance += asked.amount
			asked.answer.Send(balance)
			return true
		})
	})
	routines := many(3, func(int) {
		answer := itctrace.MakeChan[int](1)
		for turn := 0; turn < 3; turn++ {
			questions.Send(question{1, answer})
			answer.Receive()
		}
	})
	if isRaced {
		itctrace.Touch("balance", false) // race: actor
	}
	wait(routines)
	questions.Close()
	owner.Wait()
	itctrace.Touch("balance", false)
}

// batches are gathered by one who writes them down at each tick, and at the end. They are read before the end if there is a race.
func batches(isRaced bool) {
	items, stop, written := itctrace.MakeChan[string](2), itctrace.MakeChan[bool](0), itctrace.MakeChan[bool](1)
	gatherer := start(func() {
		ticker := time.NewTicker(time.Millisecond)
		defer ticker.Stop()
		waiting, isOver := 0, false
		write := func() {
			if waiting > 0 {
				itctrace.Touch("file", true) // race: batches
			}
			waiting = 0
		}
		for !isOver {
			itctrace.Select(
				itctrace.OnReceive(items, func(item string, _ bool) {
					itctrace.Touch(item, false)
					waiting++
				}),
				itctrace.OnPlain(ticker.C, func(time.Time, bool) { write() }),
				itctrace.OnReceive(stop, func(bool, bool) { isOver = true }))
		}
		for item, isThere := items.TryReceive(); isThere; item, isThere = items.TryReceive() {
			itctrace.Touch(item, false)
			waiting++
		}
		write()
		written.Send(true)
	})
	for number := 0; number < 6; number++ {
		item := fmt.Sprint("item ", number)
		itctrace.Touch(item, true)
		items.Send(item)
	}
	stop.Close()
	if isRaced {
		itctrace.Touch("file", false) // race: batches
	}
	written.Receive()
	itctrace.Touch("file", false)
	gatherer.Wait()
}

// doubleChecked makes a value once, by a look without the lock and one under it. If there is a race, it is told to be there too early.
func doubleChecked(isRaced bool) {
	var lock itctrace.Mutex
	var isThere itctrace.AtomicBool
	get := func() {
		if !isThere.Load() {
			lock.Lock()
			if !isThere.Load() {
				itctrace.Touch("config", true)
				isThere.Store(true)
			}
			lock.Unlock()
		}
		itctrace.Touch("config", false) // race: double_checked
	}
	if !isRaced {
		wait(many(4, func(int) { get() }))
		return
	}
	isTold, isRead := make(chan bool), make(chan bool)
	maker := start(func() {
		lock.Lock()
		isThere.Store(true)
		close(isTold)
		<-isRead
		itctrace.Touch("config", true) // race: double_checked
		lock.Unlock()
	})
	<-isTold
	reader := start(get)
	reader.Wait()
	close(isRead)
	maker.Wait()
}

// ring has room for two items, and a condition for each end. What was put there is changed once more if there is a race.
func ring(isRaced bool) {
	var lock itctrace.Mutex
	hasRoom, hasItems := itctrace.NewCond(&lock), itctrace.NewCond(&lock)
	var items []string
	put := func(item string) {
		lock.Lock()
		for len(items) == 2 {
			hasRoom.Wait()
		}
		items = append(items, item)
		hasItems.Signal()
		lock.Unlock()
	}
	taker := start(func() {
		for turn := 0; turn < 6; turn++ {
			lock.Lock()
			for len(items) == 0 {
				hasItems.Wait()
			}
			item := items[0]
			items = items[1:]
			hasRoom.Signal()
			lock.Unlock()
			itctrace.Touch(item, false) // race: ring
		}
	})
	for number := 0; number < 6; number++ {
		item := fmt.Sprint("item ", number)
		itctrace.Touch(item, true)
		put(item)
	}
	if isRaced {
		itctrace.Touch("item 5", true) // race: ring
	}
	taker.Wait()
}

// promise is kept by closing a channel, once. One does not wait for that if there is a race.
func promise(isRaced bool) {
	kept := itctrace.MakeChan[bool](0)
	var once itctrace.Once
	keep := func() {
		once.Do(func() {
			itctrace.Touch("value", true) // race: promise
			kept.Close()
		})
	}
	routines := many(3, func(int) {
		kept.Receive()
		itctrace.Touch("value", false)
	})
	routines = append(routines, many(2, func(int) { keep() })...)
	if isRaced {
		itctrace.Touch("value", false) // race: promise
	}
	wait(routines)
}

// quit tells workers to end, and waits for them. If there is a race, it does not wait before it reads what they have done.
func quit(isRaced bool) {
	ctx, cancel := itctrace.WithCancel(context.Background())
	jobs := itctrace.MakeChan[int](0)
	var group itctrace.WaitGroup
	for number := 0; number < 3; number++ {
		tally := fmt.Sprint("tally ", number)
		group.Add(1)
		start(func() {
			defer group.Done()
			for {
				if _, isThere, err := jobs.ReceiveOr(ctx); err != nil || !isThere {
					break
				}
			}
			itctrace.Touch(tally, true) // race: quit
		})
	}
	for job := 0; job < 6; job++ {
		jobs.Send(job)
	}
	cancel()
	if isRaced {
		itctrace.Touch("tally 1", false) // race: quit
	}
	group.Wait()
	for number := 0; number < 3; number++ {
		itctrace.Touch(fmt.Sprint("tally ", number), false)
	}
}

// leased are two connections, each of which one has at a time. One uses its own once more behind giving it back if there is a race.
func leased(isRaced bool) {
	free := itctrace.MakeChan[string](2)
	free.Send("connection 0")
	free.Send("connection 1")
	wait(many(4, func(int) {
		own, _ := free.Receive()
		itctrace.Touch(own, true)
		free.Send(own)
	}))
	if isRaced {
		own, _ := free.Receive()
		free.Send(own)
		other, _ := free.Receive()
		free.Send(other)
		user := start(func() {
			for turn := 0; turn < 2; turn++ {
				one, _ := free.Receive()
				itctrace.Touch(one, true) // race: leased
				free.Send(one)
			}
		})
		itctrace.Touch(own, true) // race: leased
		user.Wait()
	}
}

// copyOnWrite has readers of a table that is replaced as a whole. If there is a race, it is changed in its place.
func copyOnWrite(isRaced bool) {
	var lock itctrace.Mutex
	var newest itctrace.AtomicPointer[string]
	publish := func(name string) {
		lock.Lock()
		itctrace.Touch(name, true)
		newest.Store(&name)
		lock.Unlock()
	}
	publish("table 0")
	readers := many(3, func(int) {
		for turn := 0; turn < 4; turn++ {
			itctrace.Touch(*newest.Load(), false)
		}
	})
	publish("table 1")
	publish("table 2")
	wait(readers)
	publish("table 3")
	last := start(func() {
		itctrace.Touch(*newest.Load(), false) // race: copy_on_write
	})
	if isRaced {
		itctrace.Touch("table 3", true) // race: copy_on_write
	}
	last.Wait()
}

// deadline has one who waits for an answer for a time. It waits for who works it out, or reads what may be half written.
func deadline(isRaced bool) {
	ctx, cancel := itctrace.WithTimeout(context.Background(), 5*time.Millisecond)
	defer cancel()
	isTried, isGivenUp := itctrace.MakeChan[bool](1), make(chan bool)
	worker := start(func() {
		<-isGivenUp
		itctrace.Touch("answer", true) // race: deadline
		isTried.Send(true)
	})
	itctrace.Select(
		itctrace.OnReceive(isTried, func(bool, bool) { panic("it is early") }),
		itctrace.OnDone(ctx, func(error) { close(isGivenUp) }))
	if isRaced {
		itctrace.Touch("answer", false) // race: deadline
	}
	isTried.Receive()
	itctrace.Touch("answer", false)
	worker.Wait()
}
