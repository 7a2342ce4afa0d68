// Two goroutines sell from one stock, without a lock and with one. The collector tells whether that is a race.
//
// Usage: go run ./example PORT TENANT
package main

import (
	"fmt"
	"log"
	"os"
	"strconv"
	"sync"
	"sync/atomic"

	"hometturi.example/itctrace"
)

// tracedLock is a lock whose release is a message to whoever acquires it next.
type tracedLock struct {
	mutex    sync.Mutex
	session  *itctrace.Session
	name     string
	releases int
}

func must(event int, err error) int {
	if err != nil {
		log.Fatal(err)
	}
	return event
}

func (l *tracedLock) acquire(task string) {
	l.mutex.Lock()
	if l.releases > 0 {
		must(l.session.Recv(task, fmt.Sprintf("%s_%d", l.name, l.releases)))
	}
}

func (l *tracedLock) release(task string) {
	l.releases++
	must(l.session.Send(task, fmt.Sprintf("%s_%d", l.name, l.releases)))
	l.mutex.Unlock()
}

// sold has the events at which one seller read and wrote the stock.
type sold struct{ read, write int }

func sell(session *itctrace.Session, task string, stock *atomic.Int64, lock *tracedLock) sold {
	if lock != nil {
		lock.acquire(task)
	}
	left := stock.Load()
	read := must(session.Local(task))
	stock.Store(left - 1)
	write := must(session.Local(task))
	if lock != nil {
		lock.release(task)
	}
	must(session.End(task))
	return sold{read, write}
}

// isRace has two goroutines sell at once, and tells whether nothing orders the write of one and the read of the other.
func isRace(session, asking *itctrace.Session, names [2]string, lock *tracedLock) bool {
	var stock atomic.Int64
	stock.Store(2)
	var done [2]chan sold
	for place, name := range names {
		must(session.Spawn("root", name))
		done[place] = make(chan sold, 1)
		go func(name string, done chan<- sold) { done <- sell(session, name, &stock, lock) }(name, done[place])
	}
	var events [2]sold
	for place, name := range names {
		events[place] = <-done[place]
		must(session.Join("root", name))
	}
	order, err := asking.Order(events[0].write, events[1].read)
	if err != nil {
		log.Fatal(err)
	}
	return order == "concurrent"
}

func tell(title string, isRace bool) {
	if isRace {
		fmt.Println(title + ": a race")
	} else {
		fmt.Println(title + ": no race")
	}
}

func main() {
	port, err := strconv.Atoi(os.Args[1])
	if err != nil {
		log.Fatal(err)
	}
	session, err := itctrace.Open("report", os.Args[2], port)
	if err != nil {
		log.Fatal(err)
	}
	defer session.Close()
	asking, err := itctrace.Open("view", os.Args[2], port)
	if err != nil {
		log.Fatal(err)
	}
	defer asking.Close()
	tell("without a lock", isRace(session, asking, [2]string{"alice", "bob"}, nil))
	tell("with a lock", isRace(session, asking, [2]string{"carol", "dave"}, &tracedLock{session: session, name: "stock"}))
	events, tasks, messages, err := asking.Count()
	if err != nil {
		log.Fatal(err)
	}
	fmt.Printf("events: %d, tasks: %d, messages: %d\n", events, tasks, messages)
}
