package main

import (
	"context"
	"errors"
	"fmt"
	"time"

	"hometturi.example/itctrace"
)

func init() {
	for name, program := range map[string]func(isRaced bool){
		"expiry": expiry, "bucket": bucket, "subscribers": subscribers, "drained": drained, "backoff": backoff, "cut_short": cutShort,
		"singleton": singleton, "counted": counted, "sessions": sessions, "flusher": flusher, "upgrade": upgrade, "generations": generations,
		"merged": merged, "urgent": urgent,
	} {
		programs[name] = program
	}
}

// expiry is a cache whose entries a timer takes out. If there is a race, the timer acquires no lock.
func expiry(isRaced bool) {
	var lock itctrace.Mutex
	entries := map[string]int{}
	isOut := itctrace.MakeChan[bool](1)
	lock.Lock()
	itctrace.Touch("entries", true)
	entries["apple"] = 3
	lock.Unlock()
	itctrace.TimeAfterFunc(time.Millisecond, func() {
		if !isRaced {
			lock.Lock()
			defer lock.Unlock()
		}
		itctrace.Touch("entries", true) // race: expiry
		isOut.Send(true)
	})
	wait(many(3, func(int) {
		for turn := 0; turn < 4; turn++ {
			lock.Lock()
			itctrace.Touch("entries", false) // race: expiry
			lock.Unlock()
		}
	}))
	isOut.Receive()
}

// bucket gives permits at a rate. Who has a permit counts under a lock, or without it if there is a race.
func bucket(isRaced bool) {
	var lock itctrace.Mutex
	permits := itctrace.MakeChan[int](2)
	ctx, cancel := itctrace.WithCancel(context.Background())
	filler := start(func() {
		itctrace.Touch("rate", true)
		for number := 0; permits.SendOr(ctx, number) == nil; number++ {
			time.Sleep(100 * time.Microsecond)
		}
	})
	wait(many(3, func(int) {
		for turn := 0; turn < 3; turn++ {
			permits.Receive()
			itctrace.Touch("rate", false)
			if !isRaced {
				lock.Lock()
			}
			itctrace.Touch("passed", true) // race: bucket
			if !isRaced {
				lock.Unlock()
			}
		}
	}))
	cancel()
	filler.Wait()
	itctrace.Touch("passed", false)
}

// subscribers get each message by a channel of their own. If there is a race, who publishes changes the last one afterwards.
func subscribers(isRaced bool) {
	var lock itctrace.RWMutex
	inboxes := map[int]*itctrace.Chan[string]{}
	publish := func(message string) {
		itctrace.Touch(message, true)
		lock.RLock()
		defer lock.RUnlock()
		itctrace.Touch("inboxes", false)
		for _, inbox := range inboxes {
			inbox.Send(message)
		}
	}
	routines := many(3, func(number int) {
		inbox := itctrace.MakeChan[string](4)
		lock.Lock()
		itctrace.Touch("inboxes", true)
		inboxes[number] = inbox
		isLast := len(inboxes) == 3
		lock.Unlock()
		if isLast {
			for turn := 0; turn < 3; turn++ {
				publish(fmt.Sprint("message ", turn))
			}
			if isRaced {
				itctrace.Touch("message 2", true) // race: subscribers
			}
			lock.RLock()
			for _, one := range inboxes {
				one.Close()
			}
			lock.RUnlock()
		}
		inbox.Range(func(message string) bool {
			itctrace.Touch(message, false) // race: subscribers
			return true
		})
	})
	wait(routines)
}

// drained is a server that takes no more requests, and ends once those that it has are done. If there is a race, it does not wait for them.
func drained(isRaced bool) {
	var lock itctrace.Mutex
	var running itctrace.WaitGroup
	isClosed, begun := false, itctrace.MakeChan[bool](4)
	serve := func(number int) {
		lock.Lock()
		if isClosed {
			lock.Unlock()
			return
		}
		running.Add(1)
		lock.Unlock()
		defer running.Done()
		begun.Send(true)
		itctrace.Touch(fmt.Sprint("request ", number), true) // race: drained
	}
	routines := many(4, serve)
	for count := 0; count < 4; count++ {
		begun.Receive()
	}
	lock.Lock()
	isClosed = true
	lock.Unlock()
	routines = append(routines, start(func() { serve(9) }))
	if !isRaced {
		running.Wait()
	}
	for number := 0; number < 4; number++ {
		itctrace.Touch(fmt.Sprint("request ", number), false) // race: drained
	}
	wait(routines)
}

// backoff tries again after a while, until it goes well. If there is a race, the first attempt is not over when the second one begins.
func backoff(isRaced bool) {
	attempts := 0
	var late *itctrace.Routine
	attempt := func() error {
		itctrace.Touch("connection", true) // race: backoff
		if attempts++; attempts < 3 {
			return errors.New("refused")
		}
		return nil
	}
	if isRaced {
		late = start(func() { itctrace.Touch("connection", true) }) // race: backoff
	}
	for pause := 100 * time.Microsecond; ; pause *= 2 {
		answer := itctrace.MakeChan[error](1)
		start(func() { answer.Send(attempt()) })
		fault, _ := answer.Receive()
		if fault == nil {
			break
		}
		itctrace.Select(itctrace.OnPlain(time.After(pause), func(time.Time, bool) {}))
	}
	if late != nil {
		late.Wait()
	}
	itctrace.Touch("connection", false)
}

// cutShort is stages that end early, as the last one has seen enough. It reads what the first one has left, once that has seen the end, or
// at once if there is a race.
func cutShort(isRaced bool) {
	ctx, cancel := itctrace.WithCancel(context.Background())
	defer cancel()
	numbers, squares, isOver := itctrace.MakeChan[int](0), itctrace.MakeChan[int](0), itctrace.MakeChan[bool](1)
	first := start(func() {
		defer numbers.Close()
		for number := 0; numbers.SendOr(ctx, number) == nil; number++ {
			itctrace.Touch(fmt.Sprint("number ", number), true)
		}
		itctrace.Touch("left", true) // race: cut_short
		isOver.Send(true)
	})
	second := start(func() {
		defer squares.Close()
		for {
			number, isThere, fault := numbers.ReceiveOr(ctx)
			if fault != nil || !isThere || squares.SendOr(ctx, number*number) != nil {
				return
			}
		}
	})
	squares.Range(func(square int) bool { return square < 9 })
	cancel()
	if isRaced {
		itctrace.Touch("left", false) // race: cut_short
	}
	isOver.Receive()
	itctrace.Touch("left", false)
	wait([]*itctrace.Routine{first, second})
}

// singleton is made by whoever needs it first. If there is a race, one looks at it who has not asked for it.
func singleton(isRaced bool) {
	get := itctrace.OnceValue(func() string {
		itctrace.Touch("settings", true) // race: singleton
		return "settings"
	})
	routines := many(4, func(int) {
		for turn := 0; turn < 3; turn++ {
			itctrace.Touch(get(), false)
		}
	})
	if isRaced {
		itctrace.Touch("settings", false) // race: singleton
	}
	wait(routines)
	itctrace.Touch(get(), false)
}

// counted is a resource that the last of its users takes away. If there is a race, the first one does, before it counts.
func counted(isRaced bool) {
	var users itctrace.AtomicInt64
	users.Store(4)
	isIn := itctrace.MakeChan[bool](4)
	wait(many(4, func(number int) {
		if isRaced && number == 0 {
			itctrace.Touch("resource", true) // race: counted
		} else {
			itctrace.Touch("resource", false) // race: counted
		}
		isIn.Send(true)
		isLast := users.Add(-1) == 0
		if isLast && !isRaced {
			itctrace.Touch("resource", true)
		}
	}))
}

// sessions are made once for each name and kept in a map. If there is a race, two share one, which both change.
func sessions(isRaced bool) {
	var known itctrace.Map
	wait(many(4, func(number int) {
		name := fmt.Sprint("session ", number)
		if isRaced {
			name = "session"
		}
		itctrace.Touch("made by "+fmt.Sprint(number), true)
		own, _ := known.LoadOrStore(name, name)
		for turn := 0; turn < 3; turn++ {
			again, _ := known.Load(own)
			itctrace.Touch(again.(string), true) // race: sessions
		}
	}))
	known.Range(func(_, own any) bool {
		itctrace.Touch(own.(string), false)
		return true
	})
}

// flusher writes what others have put into a buffer, once it is full or all are done. If there is a race, it looks without the lock.
func flusher(isRaced bool) {
	var lock itctrace.Mutex
	isFull := itctrace.NewCond(&lock)
	buffer, isDone := 0, false
	writer := start(func() {
		lock.Lock()
		for !isDone || buffer > 0 {
			for buffer < 3 && !isDone {
				isFull.Wait()
			}
			itctrace.Touch("buffer", true)
			buffer = 0
		}
		lock.Unlock()
		if isRaced {
			itctrace.Touch("tail", false) // race: flusher
		}
	})
	wait(many(3, func(int) {
		for turn := 0; turn < 4; turn++ {
			lock.Lock()
			itctrace.Touch("buffer", true)
			buffer++
			isFull.Signal()
			lock.Unlock()
		}
	}))
	lock.Lock()
	isDone = true
	isFull.Broadcast()
	lock.Unlock()
	itctrace.Touch("tail", true) // race: flusher
	writer.Wait()
	itctrace.Touch("tail", true)
}

// upgrade looks under a lock of readers, and looks again under that of a writer. If there is a race, it writes under that of readers.
func upgrade(isRaced bool) {
	var lock itctrace.RWMutex
	value := 0
	wait(many(4, func(int) {
		lock.RLock()
		itctrace.Touch("value", false) // race: upgrade
		isThere := value > 0
		if isRaced {
			itctrace.Touch("value", true) // race: upgrade
		}
		lock.RUnlock()
		if isThere || isRaced {
			return
		}
		lock.Lock()
		itctrace.Touch("value", false)
		if value == 0 {
			itctrace.Touch("value", true)
			value = 1
		}
		lock.Unlock()
	}))
}

// generations is a barrier that is made of a lock and a condition. If there is a race, all write the same thing behind the last round.
func generations(isRaced bool) {
	const parties, rounds = 3, 3
	var lock itctrace.Mutex
	opened := itctrace.NewCond(&lock)
	waiting, generation := 0, 0
	pass := func() {
		lock.Lock()
		defer lock.Unlock()
		own := generation
		if waiting++; waiting == parties {
			waiting, generation = 0, generation+1
			opened.Broadcast()
		}
		for own == generation {
			opened.Wait()
		}
	}
	cell := func(round, number int) string { return fmt.Sprint("cell ", round, " ", number) }
	wait(many(parties, func(number int) {
		for round := 0; round < rounds; round++ {
			itctrace.Touch(cell(round, number), true)
			pass()
			itctrace.Touch(cell(round, (number+1)%parties), false)
		}
		if isRaced {
			itctrace.Touch("total", true) // race: generations
		}
	}))
}

// merged takes from two channels until both have ended. If there is a race, it reads what the second one does afterwards.
func merged(isRaced bool) {
	sources := []*itctrace.Chan[string]{itctrace.MakeChan[string](0), itctrace.MakeChan[string](2)}
	senders := many(2, func(number int) {
		for turn := 0; turn < 3; turn++ {
			name := fmt.Sprint("part ", number, " ", turn)
			itctrace.Touch(name, true)
			sources[number].Send(name)
		}
		sources[number].Close()
		if number == 1 {
			itctrace.Touch("rest", true) // race: merged
		}
	})
	for left := 2; left > 0; {
		look := func(number int) func(string, bool) {
			return func(name string, isThere bool) {
				if !isThere {
					sources[number] = nil
					left--
					return
				}
				itctrace.Touch(name, false)
			}
		}
		itctrace.Select(itctrace.OnReceive(sources[0], look(0)), itctrace.OnReceive(sources[1], look(1)))
	}
	if isRaced {
		itctrace.Touch("rest", false) // race: merged
	}
	wait(senders)
	itctrace.Touch("rest", false)
}

// urgent jobs are done before others. If there is a race, who has given one changes it afterwards.
func urgent(isRaced bool) {
	first, second := itctrace.MakeChan[string](3), itctrace.MakeChan[string](3)
	worker := start(func() {
		for left := 6; left > 0; left-- {
			do := func(job string, _ bool) {
				itctrace.Touch(job, true) // race: urgent
			}
			itctrace.Select(itctrace.OnReceive(first, do), itctrace.OnDefault(func() {
				itctrace.Select(itctrace.OnReceive(first, do), itctrace.OnReceive(second, do))
			}))
		}
	})
	for number := 0; number < 3; number++ {
		for kind, jobs := range []*itctrace.Chan[string]{first, second} {
			job := fmt.Sprint("job ", kind, " ", number)
			itctrace.Touch(job, true)
			jobs.Send(job)
		}
	}
	if isRaced {
		itctrace.Touch("job 1 2", true) // race: urgent
	}
	worker.Wait()
	itctrace.Touch("job 1 2", false)
}
