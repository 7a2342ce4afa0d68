package itctrace

import (
	"bufio"
	"context"
	"fmt"
	"net"
	"os"
	"strings"
	"sync"
	"testing"
	"time"
)

// longEnough is the time after which a goroutine that reports too late is done with its act.
const longEnough = 500 * time.Millisecond

// replying is locked while the collector answers nothing.
var replying sync.Mutex

// TestMain begins the trace of this process, at a collector that takes all reports.
func TestMain(tests *testing.M) {
	door, err := net.Listen("tcp", "127.0.0.1:0")
	if err != nil {
		panic(err)
	}
	go answer(door)
	os.Setenv("ITC_TRACE_PORT", fmt.Sprint(door.Addr().(*net.TCPAddr).Port))
	Begin()
	os.Exit(tests.Run())
}

func answer(door net.Listener) {
	connection, err := door.Accept()
	if err != nil {
		panic(err)
	}
	lines := bufio.NewScanner(connection)
	for number := 0; lines.Scan(); number++ {
		switch {
		case strings.HasPrefix(lines.Text(), "report "): // The opening has no reply of its own.
		case lines.Text() == "count":
			fmt.Fprintln(connection, "200 0 1 0")
		default:
			replying.Lock() // A test may hold the answers back.
			fmt.Fprintln(connection, "201", number)
			replying.Unlock()
		}
	}
}

// isEarly tells whether a goroutine that has prepared is done with the act while its task can note nothing, or that of a routine.
func isEarly(routine *Routine, prepare, act func(), isDone func() bool) bool {
	isReady, begin, ended := make(chan *task), make(chan bool), make(chan bool)
	go func() {
		prepare()
		isReady <- own(numberOf())
		<-begin
		act()
		close(ended)
	}()
	of := <-isReady
	if routine != nil {
		of = routine.task
	}
	defer func() { <-ended }()
	of.mutex.Lock()
	defer of.mutex.Unlock()
	close(begin)
	for begun := time.Now(); time.Since(begun) < longEnough; time.Sleep(time.Millisecond) {
		if isDone() {
			return true
		}
	}
	return false
}

// isFree tells whether a lock is free.
func isFree(tryLock func() bool, unlock func()) func() bool {
	return func() bool {
		isLocked := tryLock()
		if isLocked {
			unlock()
		}
		return isLocked
	}
}

func isClosed[T any](channel <-chan T) func() bool {
	return func() bool {
		select {
		case <-channel:
			return true
		default:
			return false
		}
	}
}

// TestReportsComeFirst: what others may come after is reported before it is done. Else one of them may be next, and not come after it.
func TestReportsComeFirst(t *testing.T) {
	var lock Mutex
	var readLock RWMutex
	var group WaitGroup
	channel := MakeChan[int](1)
	ctx, cancel := WithCancel(context.Background())
	end, isDone := make(chan bool), make(chan bool)
	routine := Go(ctx, func(context.Context) { <-end })
	group.Add(1)
	go func() {
		group.group.Wait()
		close(isDone)
	}()
	for name, one := range map[string]struct {
		routine      *Routine
		prepare, act func()
		isDone       func() bool
	}{
		"Mutex.Unlock":    {nil, lock.Lock, lock.Unlock, isFree(lock.mutex.TryLock, lock.mutex.Unlock)},
		"RWMutex.Unlock":  {nil, readLock.Lock, readLock.Unlock, isFree(readLock.lock.TryRLock, readLock.lock.RUnlock)},
		"RWMutex.RUnlock": {nil, readLock.RLock, readLock.RUnlock, isFree(readLock.lock.TryLock, readLock.lock.Unlock)},
		"WaitGroup.Done":  {nil, func() {}, group.Done, isClosed(isDone)},
		"Chan.Close":      {nil, func() {}, channel.Close, isClosed(channel.items)},
		"cancel":          {nil, func() {}, cancel, isClosed(ctx.Done())},
		"the end of Go":   {routine, func() {}, func() { close(end) }, isClosed(routine.done)},
	} {
		if isEarly(one.routine, one.prepare, one.act, one.isDone) {
			t.Errorf("%s is done before it is reported", name)
		}
	}
}
