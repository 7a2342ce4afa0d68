package main

import (
	"fmt"
	"os"
	"runtime"
	"strconv"
	"sync"

	"hometturi.example/itctrace"
)

const (
	manyObjects = 20_000
	manyReads   = 40_000
	// mostKept is how many bytes may be kept of many locks that are no more.
	mostKept = 8 << 20
)

func init() {
	add(map[string]func(){
		"readers":      readers,
		"only_readers": onlyReaders,
		"objects":      objects,
		"free_lock":    func() { freeLock(turnsAsked()) },
		"plain_lock":   func() { plainLock(turnsAsked()) },
		"free_reads":   func() { freeReads(turnsAsked()) },
		"plain_reads":  func() { plainReads(turnsAsked()) },
		"two_locks":    func() { twoLocks(turnsAsked()) },
		"gone_locks":   goneLocks,
		"gone_readers": goneReaders,
	})
}

func turnsAsked() int { return must(strconv.Atoi(os.Args[2])) }

// readers takes a lock for reading very often, and once for writing.
func readers() {
	var lock itctrace.RWMutex
	reading := start(func() {
		for turn := 0; turn < manyReads; turn++ {
			lock.RLock()
			itctrace.Touch("stock", false)
			lock.RUnlock()
		}
	})
	reading.Wait()
	lock.Lock()
	itctrace.Touch("stock", true)
	lock.Unlock()
}

// onlyReaders never takes the lock for writing.
func onlyReaders() {
	var lock itctrace.RWMutex
	var routines []*itctrace.Routine
	for number := 0; number < 3; number++ {
		routines = append(routines, start(func() {
			for turn := 0; turn < 2000; turn++ {
				lock.RLock()
				itctrace.Touch("stock", false)
				lock.RUnlock()
			}
		}))
	}
	for _, routine := range routines {
		routine.Wait()
	}
}

type object struct {
	lock itctrace.Mutex
	size int
}

// objects locks each of many objects, twice.
func objects() {
	all := make([]object, manyObjects)
	for turn := 0; turn < 2; turn++ {
		for place := range all {
			all[place].lock.Lock()
			all[place].size++
			all[place].lock.Unlock()
		}
	}
}

func freeLock(turns int) {
	var lock itctrace.Mutex
	for turn := 0; turn < turns; turn++ {
		lock.Lock()
		lock.Unlock()
	}
}

func plainLock(turns int) {
	var lock sync.Mutex
	for turn := 0; turn < turns; turn++ {
		lock.Lock()
		lock.Unlock()
	}
}

func freeReads(turns int) {
	var lock itctrace.RWMutex
	for turn := 0; turn < turns; turn++ {
		lock.RLock()
		lock.RUnlock()
	}
}

func plainReads(turns int) {
	var lock sync.RWMutex
	for turn := 0; turn < turns; turn++ {
		lock.RLock()
		lock.RUnlock()
	}
}

// twoLocks acquires two free locks by turns, and touches something under each and between them.
func twoLocks(turns int) {
	var first, second itctrace.Mutex
	for turn := 0; turn < turns; turn++ {
		first.Lock()
		itctrace.Touch("first", true)
		first.Unlock()
		itctrace.Touch("between", true)
		second.Lock()
		itctrace.Touch("second", true)
		second.Unlock()
	}
}

// goneLocks makes many locks, each of which is no more after its use.
func goneLocks() {
	const count = 100_000
	keepsLittle(func() {
		for number := 0; number < count; number++ {
			one := &object{}
			one.lock.Lock()
			one.size++
			one.lock.Unlock()
		}
	})
}

// goneReaders has many goroutines read under a lock that nobody writes under.
func goneReaders() {
	var lock itctrace.RWMutex
	keepsLittle(func() {
		for number := 0; number < 300; number++ {
			start(func() {
				lock.RLock()
				itctrace.Touch("stock", false)
				lock.RUnlock()
			}).Wait()
		}
	})
	lock.Lock()
	itctrace.Touch("stock", true)
	lock.Unlock()
}

func keepsLittle(body func()) {
	before := kept()
	body()
	if more := kept() - before; more > mostKept {
		panic(fmt.Sprintf("%d bytes are kept", more))
	}
}

func kept() int {
	itctrace.Flush()
	runtime.GC()
	var told runtime.MemStats
	runtime.ReadMemStats(&told)
	return int(told.HeapAlloc)
}
