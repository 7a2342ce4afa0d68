// Programs as people write them, each with a race and without one: clients/scenarios.py runs them. With a race exactly the lines race that
// name the program in a comment.
//
// Usage: go run ./scenarios NAME [race]
package main

import (
	"context"
	"errors"
	"fmt"
	"os"
	"sort"
	"time"

	"hometturi.example/itctrace"
)

var programs = map[string]func(isRaced bool){
	"bank": bank, "pool": pool, "hand_over": handOver, "table": table, "parts": parts, "rounds": rounds, "stages": stages, "cache": cache,
	"connection": connection, "last_one": lastOne, "stop_flag": stopFlag, "failure": failure, "two_locks": twoLocks, "choice": choice,
	"swap": swap, "crowd": crowd, "grandchild": grandchild, "mailbox": mailbox, "leak": leak, "later": later, "published": published,
}

func start(body func()) *itctrace.Routine {
	return itctrace.Go(context.Background(), func(context.Context) { body() })
}

func many(count int, body func(number int)) (routines []*itctrace.Routine) {
	for number := 0; number < count; number++ {
		number := number
		routines = append(routines, start(func() { body(number) }))
	}
	return routines
}

func wait(routines []*itctrace.Routine) {
	for _, routine := range routines {
		routine.Wait()
	}
}

// bank has clerks who book under a lock, and an auditor who reads what they write, without the lock if there is a race.
func bank(isRaced bool) {
	var lock itctrace.Mutex
	routines := many(3, func(int) {
		for turn := 0; turn < 5; turn++ {
			lock.Lock()
			itctrace.Touch("balance", false)
			itctrace.Touch("balance", true) // race: bank
			lock.Unlock()
		}
	})
	routines = append(routines, start(func() {
		if !isRaced {
			lock.Lock()
			defer lock.Unlock()
		}
		itctrace.Touch("balance", false) // race: bank
	}))
	wait(routines)
}

// pool has workers who take jobs from a channel and send results.
func pool(isRaced bool) {
	jobs, results := itctrace.MakeChan[int](6), itctrace.MakeChan[int](6)
	workers := many(3, func(int) {
		for job, isThere := jobs.Receive(); isThere; job, isThere = jobs.Receive() {
			itctrace.Touch(fmt.Sprint("result ", job), true) // race: pool
			results.Send(job)
		}
	})
	for job := 0; job < 6; job++ {
		jobs.Send(job)
	}
	jobs.Close()
	if isRaced {
		itctrace.Touch("result 5", false) // race: pool
	}
	for count := 0; count < 6; count++ {
		job, _ := results.Receive()
		itctrace.Touch(fmt.Sprint("result ", job), false)
	}
	wait(workers)
}

// handOver fills an item before it hands it on, or also behind that.
func handOver(isRaced bool) {
	items := itctrace.MakeChan[string](2)
	taker := start(func() {
		for item, isThere := items.Receive(); isThere; item, isThere = items.Receive() {
			itctrace.Touch(item, false) // race: hand_over
		}
	})
	for _, item := range []string{"apple", "pear", "plum"} {
		itctrace.Touch(item, true)
		items.Send(item)
	}
	if isRaced {
		itctrace.Touch("plum", true) // race: hand_over
	}
	items.Close()
	taker.Wait()
}

// table is read by many and written by one, who acquires the lock for readers if there is a race.
func table(isRaced bool) {
	var lock itctrace.RWMutex
	routines := many(3, func(int) {
		for turn := 0; turn < 4; turn++ {
			lock.RLock()
			itctrace.Touch("table", false) // race: table
			lock.RUnlock()
		}
	})
	routines = append(routines, start(func() {
		if isRaced {
			lock.RLock()
			itctrace.Touch("table", true) // race: table
			lock.RUnlock()
			return
		}
		lock.Lock()
		itctrace.Touch("table", true)
		lock.Unlock()
	}))
	wait(routines)
}

// parts has a group of goroutines, each with a cell.
func parts(isRaced bool) {
	var group itctrace.WaitGroup
	group.Add(8)
	many(8, func(number int) {
		defer group.Done()
		itctrace.Touch(fmt.Sprint("cell ", number), true) // race: parts
	})
	if isRaced {
		itctrace.Touch("cell 7", false) // race: parts
	}
	group.Wait()
	itctrace.Touch("cell 7", false)
}

// rounds has three who meet between two rounds. The second meeting is forgotten if there is a race.
func rounds(isRaced bool) {
	var first, second itctrace.WaitGroup
	first.Add(3)
	second.Add(3)
	wait(many(3, func(number int) {
		own, next := fmt.Sprint("cell ", number), fmt.Sprint("cell ", (number+1)%3)
		itctrace.Touch(own, true)
		first.Done()
		first.Wait()
		itctrace.Touch(next, false) // race: rounds
		if !isRaced {
			second.Done()
			second.Wait()
		}
		itctrace.Touch(own, true) // race: rounds
	}))
}

// stages hand on by channels. The middle one changes what it has handed on if there is a race.
func stages(isRaced bool) {
	first, last := itctrace.MakeChan[string](4), itctrace.MakeChan[string](4)
	stage := start(func() {
		for part, isThere := first.Receive(); isThere; part, isThere = first.Receive() {
			itctrace.Touch(part, true)
			last.Send(part)
			if isRaced {
				itctrace.Touch(part, true) // race: stages
			}
		}
		last.Close()
	})
	for _, part := range []string{"head", "body"} {
		itctrace.Touch(part, true)
		first.Send(part)
	}
	first.Close()
	for part, isThere := last.Receive(); isThere; part, isThere = last.Receive() {
		itctrace.Touch(part, false) // race: stages
	}
	stage.Wait()
}

// cache has a value that whoever comes first makes. One who does not ask for it may come before it is there.
func cache(isRaced bool) {
	value := itctrace.OnceValue(func() int {
		itctrace.Touch("value", true) // race: cache
		return 7
	})
	routines := many(4, func(int) {
		value()
		itctrace.Touch("value", false)
	})
	if isRaced {
		itctrace.Touch("value", false) // race: cache
	}
	wait(routines)
}

// connection is used by one at a time, who holds the one place of a channel.
func connection(isRaced bool) {
	free := itctrace.MakeChan[bool](1)
	routines := many(3, func(int) {
		free.Send(true)
		itctrace.Touch("connection", true) // race: connection
		free.Receive()
	})
	if isRaced {
		routines = append(routines, start(func() { itctrace.Touch("connection", true) })) // race: connection
	}
	wait(routines)
}

// lastOne reads what all have done, if it is done last.
func lastOne(isRaced bool) {
	var left itctrace.AtomicInt32
	left.Store(3)
	routines := many(3, func(number int) {
		itctrace.Touch(fmt.Sprint("share ", number), true) // race: last_one
		if left.Add(-1) == 0 {
			itctrace.Touch("share 0", false)
			itctrace.Touch("share 1", false)
			itctrace.Touch("share 2", false)
		}
	})
	if isRaced {
		itctrace.Touch("share 1", false) // race: last_one
	}
	wait(routines)
}

// stopFlag has a worker who goes on until its context is cancelled.
func stopFlag(isRaced bool) {
	ctx, cancel := itctrace.WithCancel(context.Background())
	worker := start(func() {
		for itctrace.Done(ctx) == nil {
			time.Sleep(time.Millisecond)
		}
		itctrace.Touch("result", false) // race: stop_flag
	})
	if !isRaced {
		itctrace.Touch("result", true)
	}
	cancel()
	if isRaced {
		itctrace.Touch("result", true) // race: stop_flag
	}
	worker.Wait()
}

// failure is a group whose first member fails behind its write.
func failure(isRaced bool) {
	group, _ := itctrace.GroupWithContext(context.Background())
	group.Go(func() error {
		itctrace.Touch("log", true) // race: failure
		return errors.New("as it is to be")
	})
	if isRaced {
		itctrace.Touch("log", false) // race: failure
	}
	if group.Wait() == nil {
		panic("it has not failed")
	}
	itctrace.Touch("log", false)
}

// twoLocks are acquired by all in one order. If there is a race, one holds a lock that nobody else acquires.
func twoLocks(isRaced bool) {
	var first, second, other itctrace.Mutex
	routines := many(3, func(int) {
		first.Lock()
		second.Lock()
		itctrace.Touch("both", true) // race: two_locks
		second.Unlock()
		first.Unlock()
	})
	routines = append(routines, start(func() {
		own := &second
		if isRaced {
			own = &other
		}
		own.Lock()
		itctrace.Touch("both", true) // race: two_locks
		own.Unlock()
	}))
	wait(routines)
}

// choice takes from whichever channel has something first.
func choice(isRaced bool) {
	left, right := itctrace.MakeChan[string](0), itctrace.MakeChan[string](0)
	send := func(to *itctrace.Chan[string], name string) *itctrace.Routine {
		return start(func() {
			itctrace.Touch(name, true)
			to.Send(name)
			if isRaced {
				itctrace.Touch(name, true) // race: choice
			}
		})
	}
	routines := []*itctrace.Routine{send(left, "left"), send(right, "right")}
	for count := 0; count < 2; count++ {
		itctrace.Select(
			itctrace.OnReceive(left, func(name string, _ bool) { itctrace.Touch(name, false) }),  // race: choice
			itctrace.OnReceive(right, func(name string, _ bool) { itctrace.Touch(name, false) })) // race: choice
	}
	wait(routines)
}

// swap has two who swap their buffers by two channels.
func swap(isRaced bool) {
	toRight, toLeft := itctrace.MakeChan[string](1), itctrace.MakeChan[string](1)
	side := func(own string, give, take *itctrace.Chan[string]) *itctrace.Routine {
		return start(func() {
			itctrace.Touch(own, true)
			give.Send(own)
			other, _ := take.Receive()
			itctrace.Touch(other, true) // race: swap
			if isRaced {
				itctrace.Touch(own, true) // race: swap
			}
		})
	}
	wait([]*itctrace.Routine{side("left", toRight, toLeft), side("right", toLeft, toRight)})
}

// crowd has many goroutines, each with a cell, and one who reads them all.
func crowd(isRaced bool) {
	routines := many(64, func(number int) { itctrace.Touch(fmt.Sprint("cell ", number), true) }) // race: crowd
	if isRaced {
		itctrace.Touch("cell 63", false) // race: crowd
	}
	wait(routines)
	for number := 0; number < 64; number++ {
		itctrace.Touch(fmt.Sprint("cell ", number), false)
	}
}

// grandchild is started by a goroutine that does not wait for it if there is a race.
func grandchild(isRaced bool) {
	var young *itctrace.Routine
	start(func() {
		young = start(func() { itctrace.Touch("toy", true) }) // race: grandchild
		if !isRaced {
			young.Wait()
		}
	}).Wait()
	itctrace.Touch("toy", false) // race: grandchild
	young.Wait()
}

// mailbox hands on a message by name, through a channel that nobody follows.
func mailbox(isRaced bool) {
	letters := make(chan string, 1)
	reader := start(func() {
		letter := <-letters
		if !isRaced {
			itctrace.Incoming(letter)
		}
		itctrace.Touch("letter", false) // race: mailbox
	})
	itctrace.Touch("letter", true) // race: mailbox
	letters <- itctrace.Outgoing()
	reader.Wait()
}

// leak has a goroutine that waits for ever, and what it wrote before is read by nobody, or by the one who left it.
func leak(isRaced bool) {
	never, written := itctrace.MakeChan[bool](0), make(chan bool)
	start(func() {
		itctrace.Touch("leaked", true) // race: leak
		close(written)
		never.Receive()
	})
	<-written
	if isRaced {
		itctrace.Touch("leaked", false) // race: leak
	}
}

// later has a timer whose function tells by a channel that it was called.
func later(isRaced bool) {
	rung := itctrace.MakeChan[bool](1)
	itctrace.Touch("alarm", true)
	itctrace.TimeAfterFunc(time.Millisecond, func() {
		itctrace.Touch("alarm", true) // race: later
		rung.Send(true)
	})
	if isRaced {
		itctrace.Touch("alarm", false) // race: later
	}
	rung.Receive()
	itctrace.Touch("alarm", false)
}

// published has a pointer by which a reader finds what a writer has made.
func published(isRaced bool) {
	var newest itctrace.AtomicPointer[string]
	reader := start(func() {
		for newest.Load() == nil {
			time.Sleep(time.Millisecond)
		}
		itctrace.Touch("page", false) // race: published
	})
	if !isRaced {
		itctrace.Touch("page", true)
	}
	text := "page"
	newest.Store(&text)
	if isRaced {
		itctrace.Touch("page", true) // race: published
	}
	reader.Wait()
}

func main() {
	if len(os.Args) == 1 {
		var names []string
		for name := range programs {
			names = append(names, name)
		}
		sort.Strings(names)
		for _, name := range names {
			fmt.Println(name)
		}
		return
	}
	defer itctrace.Begin().End()
	programs[os.Args[1]](len(os.Args) > 2)
}
