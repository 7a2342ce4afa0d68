package main

import (
	"context"
	"errors"
	"runtime"
	"sync"
	"time"

	"hometturi.example/itctrace"
)

func init() {
	add(map[string]func(){
		"once":             func() { once(false) },
		"once_race":        func() { once(true) },
		"once_again":       onceAgain,
		"once_value":       func() { onceValue(false) },
		"once_value_race":  func() { onceValue(true) },
		"atomic_flag":      func() { atomicFlag(false) },
		"atomic_flag_race": func() { atomicFlag(true) },
		"pointer":          func() { pointer(false) },
		"pointer_race":     func() { pointer(true) },
		"counter":          func() { counter(false) },
		"counter_race":     func() { counter(true) },
		"atomic_values":    atomicValues,
		"pool":             func() { pooled(false) },
		"pool_race":        func() { pooled(true) },
		"map":              func() { sharedMap(false) },
		"map_race":         func() { sharedMap(true) },
		"signal":           func() { signalled(false) },
		"signal_race":      func() { signalled(true) },
		"choose":           func() { choose(false) },
		"choose_race":      func() { choose(true) },
		"choose_send":      func() { chooseSend(false) },
		"choose_send_race": func() { chooseSend(true) },
		"try_send":         func() { trySend(false) },
		"try_send_race":    func() { trySend(true) },
		"send_or":          func() { sendOr(false) },
		"send_or_race":     func() { sendOr(true) },
		"range":            func() { ranged(false) },
		"range_race":       func() { ranged(true) },
		"timer":            func() { timer(false) },
		"timer_race":       func() { timer(true) },
		"group":            func() { group(false) },
		"group_race":       func() { group(true) },
		"limited_group":    limitedGroup,
		"marks":            func() { marks(false) },
		"marks_race":       func() { marks(true) },
		"barrier":          func() { barrier(false) },
		"barrier_race":     func() { barrier(true) },
		"read_locker":      func() { readLocker(false) },
		"read_locker_race": func() { readLocker(true) },
		"semaphore":        func() { semaphore(false) },
		"semaphore_race":   func() { semaphore(true) },
		"pipeline":         func() { pipeline(false) },
		"pipeline_race":    func() { pipeline(true) },
		"published":        func() { published(false) },
		"published_race":   func() { published(true) },
		"wrong_lock":       func() { lockOfTwo(true) },
		"right_lock":       func() { lockOfTwo(false) },
		"cancelled":        func() { cancelled(false) },
		"cancelled_race":   func() { cancelled(true) },
		"cached":           func() { cached(false) },
		"cached_race":      func() { cached(true) },
		"polled":           func() { polled(false) },
		"polled_race":      func() { polled(true) },
		"lazy":             func() { lazy(false) },
		"lazy_race":        func() { lazy(true) },
		"two_orders":       func() { orders(false) },
		"two_orders_gate":  func() { orders(true) },
		"read_orders":      func() { readOrders(false) },
		"read_orders_both": func() { readOrders(true) },
		"tried_order":      triedOrder,
		"crossed_orders":   func() { crossedOrders(false) },
		"gate_let_go":      func() { crossedOrders(true) },
		"hand_over_hand":   func() { handOverHand(false) },
		"both_ends":        func() { handOverHand(true) },
		"condition_orders": conditionOrders,
		"wait_orders":      waitOrders,
		"signal_orders":    signalOrders,
		"lock_of_readers":  lockOfReaders,
	})
}

// twice has the first goroutine be done before the second one begins. Nothing that is reported says so.
func twice(first, second func()) {
	isDone := make(chan bool)
	one := start(func() {
		first()
		close(isDone)
	})
	<-isDone
	other := start(second)
	one.Wait()
	other.Wait()
}

// once initializes by whoever comes first. The race is a change behind the initialization.
func once(isLate bool) {
	var done itctrace.Once
	twice(func() {
		done.Do(func() { itctrace.Touch("config", true) })
		if isLate {
			itctrace.Touch("config", true) // race: once_race
		}
	}, func() {
		done.Do(func() { panic("it was done") })
		itctrace.Touch("config", false) // race: once_race
	})
}

// onceAgain sees what a goroutine has done that has ended since, and sees it again behind the ends of many others.
func onceAgain() {
	var done itctrace.Once
	isDone := make(chan bool)
	start(func() {
		done.Do(func() { itctrace.Touch("config", true) })
		close(isDone)
	})
	<-isDone
	for turn := 0; turn < 2; turn++ {
		done.Do(func() { panic("it was done") })
		itctrace.Touch("config", false)
		for number := 0; number < 100; number++ {
			start(func() {}).Wait()
		}
	}
}

func onceValue(isLate bool) {
	config := itctrace.OnceValues(func() (int, error) {
		itctrace.Touch("config", true)
		return 7, nil
	})
	twice(func() {
		config()
		if isLate {
			itctrace.Touch("config", true) // race: once_value_race
		}
	}, func() {
		if value, err := config(); value != 7 || err != nil {
			panic("another value")
		}
		itctrace.Touch("config", false) // race: once_value_race
	})
	failing := itctrace.OnceFunc(func() { panic("it fails") })
	for turn := 0; turn < 2; turn++ {
		func() {
			defer func() {
				if recover() != "it fails" {
					panic("it did not fail")
				}
			}()
			failing()
		}()
	}
}

// atomicFlag polls a flag. The race is a change behind the setting of the flag.
func atomicFlag(isLate bool) {
	var isReady itctrace.AtomicBool
	polling := start(func() {
		for !isReady.Load() {
			runtime.Gosched()
		}
		itctrace.Touch("stock", false) // race: atomic_flag_race
	})
	itctrace.Touch("stock", true)
	isReady.Store(true)
	if isLate {
		itctrace.Touch("stock", true) // race: atomic_flag_race
	}
	polling.Wait()
}

type config struct{ size int }

func pointer(isLate bool) {
	var shared itctrace.AtomicPointer[config]
	twice(func() {
		itctrace.Touch("config", true)
		shared.Store(&config{7})
		if isLate {
			itctrace.Touch("config", true) // race: pointer_race
		}
	}, func() {
		if shared.Load().size != 7 {
			panic("another size")
		}
		itctrace.Touch("config", false) // race: pointer_race
	})
}

// counter has the last of three goroutines look at what all have done.
func counter(isUncounted bool) {
	var left itctrace.AtomicInt32
	left.Store(3)
	var routines []*itctrace.Routine
	for _, thing := range []string{"first", "second", "third"} {
		thing := thing
		routines = append(routines, start(func() {
			if !isUncounted {
				itctrace.Touch(thing, true)
			}
			isLast := left.Add(-1) == 0
			if isUncounted {
				itctrace.Touch("third", true) // race: counter_race
			}
			if isLast && !isUncounted {
				for _, other := range []string{"first", "second", "third"} {
					itctrace.Touch(other, false)
				}
			}
		}))
	}
	for _, routine := range routines {
		routine.Wait()
	}
}

// atomicValues: each kind of them holds what it is given, and each of its calls hands over.
func atomicValues() {
	var small itctrace.AtomicUint32
	var great itctrace.AtomicUint64
	var number itctrace.AtomicInt64
	var flag itctrace.AtomicBool
	var value itctrace.AtomicValue
	hands := map[string][2]func() bool{
		"uint32": {func() bool { return small.Add(7) == 7 }, func() bool { return small.Swap(8) == 7 && small.Load() == 8 }},
		"uint64": {func() bool { return great.CompareAndSwap(0, 7) }, func() bool { return !great.CompareAndSwap(8, 9) && great.Load() == 7 }},
		"int64":  {func() bool { return number.Swap(7) == 0 }, func() bool { return number.CompareAndSwap(7, 8) }},
		"bool":   {func() bool { return !flag.Swap(true) }, func() bool { return !flag.CompareAndSwap(false, true) }},
		"value":  {func() bool { value.Store("a"); return true }, func() bool { return value.Load() == "a" }},
	}
	for name, both := range hands {
		twice(func() {
			itctrace.Touch(name, true)
			if !both[0]() {
				panic(name)
			}
		}, func() {
			if !both[1]() {
				panic(name)
			}
			itctrace.Touch(name, true)
		})
	}
}

func sharedMap(isLate bool) {
	var shared itctrace.Map
	twice(func() {
		itctrace.Touch("item", true)
		shared.Store("key", 7)
		if isLate {
			itctrace.Touch("item", true) // race: map_race
		}
	}, func() {
		if value, isThere := shared.Load("key"); !isThere || value != 7 {
			panic("another value")
		}
		itctrace.Touch("item", false) // race: map_race
		if value, isThere := shared.LoadOrStore("key", 8); !isThere || value != 7 {
			panic("another value")
		}
		shared.Range(func(key, value any) bool { return key != "key" || value != 7 })
		if value, isThere := shared.LoadAndDelete("key"); !isThere || value != 7 {
			panic("another value")
		}
		shared.Delete("key")
		if _, isThere := shared.Load("key"); isThere {
			panic("it is still there")
		}
	})
}

// pooled has what the first one puts into a pool be used again by the second one. With one processor a pool loses nothing.
func pooled(isLate bool) {
	runtime.GOMAXPROCS(1)
	var pool itctrace.Pool
	if pool.Get() != nil {
		panic("it is empty")
	}
	pool.New = func() any { return "new" }
	twice(func() {
		itctrace.Touch("buffer", true)
		pool.Put("used")
		if isLate {
			itctrace.Touch("buffer", true) // race: pool_race
		}
	}, func() {
		if pool.Get() != "used" || pool.Get() != "new" {
			panic("another value")
		}
		itctrace.Touch("buffer", false) // race: pool_race
	})
}

// signalled wakes by a condition without its lock.
func signalled(isLate bool) {
	var lock itctrace.Mutex
	woken := itctrace.NewCond(&lock)
	isWaiting := make(chan bool)
	waiting := start(func() {
		lock.Lock()
		close(isWaiting)
		woken.Wait()
		lock.Unlock()
		itctrace.Touch("stock", false) // race: signal_race
	})
	<-isWaiting
	lock.Lock() // It waits by now.
	lock.Unlock()
	itctrace.Touch("stock", true)
	woken.Signal()
	if isLate {
		itctrace.Touch("stock", true) // race: signal_race
	}
	waiting.Wait()
	woken.Broadcast() // Nobody waits.
}

// choose receives by a choice from several channels.
func choose(isLate bool) {
	empty, full := itctrace.MakeChan[string](1), itctrace.MakeChan[int](1)
	ctx, cancel := itctrace.WithCancel(context.Background())
	defer cancel()
	itctrace.Select(itctrace.OnReceive(empty, func(string, bool) { panic("it is empty") }), itctrace.OnDefault(func() {}))
	choosing := start(func() {
		itctrace.Select(
			itctrace.OnReceive(empty, func(string, bool) { panic("it is empty") }),
			itctrace.OnReceive(full, func(value int, isThere bool) {
				if value != 7 || !isThere {
					panic("another value")
				}
			}),
			itctrace.OnDone(ctx, func(error) { panic("it is not done") }),
			itctrace.OnPlain(time.After(time.Hour), func(time.Time, bool) { panic("it is late") }))
		itctrace.Touch("stock", false) // race: choose_race
	})
	itctrace.Touch("stock", true)
	full.Send(7)
	if isLate {
		itctrace.Touch("stock", true) // race: choose_race
	}
	choosing.Wait()
	itctrace.Touch("stock", true)
	closed := itctrace.MakeChan[int](0)
	seeing := start(func() {
		itctrace.Select(itctrace.OnReceive(closed, func(_ int, isThere bool) {
			if isThere {
				panic("it is closed")
			}
		}))
		itctrace.Touch("closed", false)
	})
	itctrace.Touch("closed", true)
	closed.Close()
	seeing.Wait()
}

// chooseSend sends by a choice, to who takes at once and into a buffer.
func chooseSend(isLate bool) {
	for size := 0; size < 2; size++ {
		channel, full := itctrace.MakeChan[int](size), itctrace.MakeChan[int](0)
		taking := start(func() {
			if value, isThere := channel.Receive(); value != 7 || !isThere {
				panic("another value")
			}
			itctrace.Touch("stock", false) // race: choose_send_race
		})
		itctrace.Touch("stock", true)
		isSent := false
		itctrace.Select(
			itctrace.OnSend(full, 1, func() { panic("nobody receives") }),
			itctrace.OnSend(channel, 7, func() { isSent = true }))
		if isLate {
			itctrace.Touch("stock", true) // race: choose_send_race
		}
		taking.Wait()
		if !isSent || channel.Len() != 0 || channel.Cap() != size {
			panic("it was not sent")
		}
	}
}

func trySend(isLate bool) {
	channel := itctrace.MakeChan[int](1)
	itctrace.Touch("stock", true)
	if !channel.TrySend(7) || channel.TrySend(8) || itctrace.MakeChan[int](0).TrySend(1) || channel.Len() != 1 {
		panic("not sent once")
	}
	taking := start(func() {})
	taking.Wait()
	plain := make(chan bool)
	go func() { // Nobody was seen to start it: the item alone says that it comes later.
		channel.Receive()
		itctrace.Touch("stock", false) // race: try_send_race
		close(plain)
	}()
	if isLate {
		itctrace.Touch("stock", true) // race: try_send_race
	}
	<-plain
}

func sendOr(isLate bool) {
	channel := itctrace.MakeChan[int](0)
	ctx, cancel := itctrace.WithCancel(context.Background())
	taking := start(func() {
		if value, isThere, err := channel.ReceiveOr(ctx); value != 7 || !isThere || err != nil {
			panic("another value")
		}
		itctrace.Touch("stock", false) // race: send_or_race
	})
	itctrace.Touch("stock", true)
	check(channel.SendOr(ctx, 7))
	if isLate {
		itctrace.Touch("stock", true) // race: send_or_race
	}
	taking.Wait()
	cancelling := start(func() {
		itctrace.Touch("reason", true)
		cancel()
	})
	if !errors.Is(channel.SendOr(ctx, 8), context.Canceled) {
		panic("it was sent")
	}
	itctrace.Touch("reason", false)
	cancelling.Wait()
}

func ranged(isLate bool) {
	channel := itctrace.MakeChan[int](2)
	taking := start(func() {
		sum := 0
		channel.Range(func(value int) bool {
			sum += value
			itctrace.Touch("item", false) // race: range_race
			return true
		})
		if sum != 6 {
			panic("another sum")
		}
		itctrace.Touch("end", false)
	})
	itctrace.Touch("item", true)
	for value := 1; value < 4; value++ {
		channel.Send(value)
	}
	if isLate {
		itctrace.Touch("item", true) // race: range_race
	}
	itctrace.Touch("end", true)
	channel.Close()
	taking.Wait()
}

// timer: what is called later comes after what set the timer, and after what set it again.
func timer(isLate bool) {
	isCalled := make(chan bool)
	itctrace.Touch("stock", true)
	waiting := itctrace.TimeAfterFunc(time.Hour, func() {
		itctrace.Touch("stock", false) // race: timer_race
		close(isCalled)
	})
	itctrace.Touch("stock", true)
	if !waiting.Reset(time.Millisecond) {
		panic("it was called already")
	}
	if isLate {
		itctrace.Touch("stock", true) // race: timer_race
	}
	<-isCalled
	if itctrace.TimeAfterFunc(time.Hour, func() {}).Stop() == waiting.Stop() {
		panic("one was stopped, the other was over")
	}
}

func group(isEarly bool) {
	all, ctx := itctrace.GroupWithContext(context.Background())
	failed := errors.New("it failed")
	for _, thing := range []string{"first", "second"} {
		thing := thing
		all.Go(func() error {
			itctrace.Touch(thing, true) // race: group_race
			return nil
		})
	}
	all.Go(func() error { return failed })
	itctrace.Done(ctx)
	if isEarly {
		itctrace.Touch("first", false) // race: group_race
	}
	if all.Wait() != failed {
		panic("another error")
	}
	itctrace.Touch("first", false)
	itctrace.Touch("second", false)
}

// limitedGroup: one goroutine alone runs at once, so that each comes after the ones before.
func limitedGroup() {
	var all itctrace.Group
	all.SetLimit(1)
	for turn := 0; turn < 4; turn++ {
		all.Go(func() error {
			itctrace.Touch("stock", true)
			return nil
		})
	}
	check(all.Wait())
	isRunning, isOver := make(chan bool), make(chan bool)
	all.Go(func() error {
		close(isRunning)
		<-isOver
		return nil
	})
	<-isRunning
	if all.TryGo(func() error { return nil }) {
		panic("two run")
	}
	close(isOver)
	check(all.Wait())
}

// marks has an order that the program knows of.
func marks(isForgotten bool) {
	var isThere itctrace.Token
	twice(func() {
		itctrace.Touch("stock", true) // race: marks_race
		if !isForgotten {
			itctrace.Before(&isThere)
		}
	}, func() {
		itctrace.After(&isThere)
		itctrace.Touch("stock", false) // race: marks_race
	})
}

// barrier has each of three goroutines write, wait for all, and read what the others wrote.
func barrier(isForgotten bool) {
	var arrived itctrace.Token
	var waiting sync.WaitGroup
	things := []string{"first", "second", "third"}
	waiting.Add(len(things))
	var routines []*itctrace.Routine
	for place := range things {
		place := place
		routines = append(routines, start(func() {
			itctrace.Touch(things[place], true) // race: barrier_race
			if place > 0 || !isForgotten {
				itctrace.Before(&arrived)
			}
			waiting.Done()
			waiting.Wait()
			itctrace.After(&arrived)
			itctrace.Touch("first", false) // race: barrier_race
			itctrace.Touch("third", false)
		}))
	}
	for _, routine := range routines {
		routine.Wait()
	}
}

func readLocker(isWrittenByBoth bool) {
	var lock itctrace.RWMutex
	reading := lock.RLocker()
	twice(func() {
		lock.Lock()
		if !isWrittenByBoth {
			itctrace.Touch("stock", true)
		}
		lock.Unlock()
		reading.Lock()
		itctrace.Touch("stock", isWrittenByBoth) // race: read_locker_race
		reading.Unlock()
	}, func() {
		reading.Lock()
		itctrace.Touch("stock", isWrittenByBoth) // race: read_locker_race
		reading.Unlock()
	})
}

// semaphore lets one in at a time, by room in a channel. With room for two it keeps nobody out.
func semaphore(isWide bool) {
	room := itctrace.MakeChan[bool](1)
	if isWide {
		room = itctrace.MakeChan[bool](2)
	}
	twice(func() {
		room.Send(true)
		itctrace.Touch("stock", true) // race: semaphore_race
		room.Receive()
	}, func() {
		room.Send(true)
		itctrace.Touch("stock", true) // race: semaphore_race
		room.Receive()
	})
}

// pipeline hands items from stage to stage.
func pipeline(isShared bool) {
	first, second := itctrace.MakeChan[int](0), itctrace.MakeChan[int](0)
	stage := start(func() {
		first.Range(func(value int) bool {
			itctrace.Touch("item", true)
			if isShared {
				itctrace.Touch("total", true) // race: pipeline_race
			}
			second.Send(2 * value)
			return true
		})
		second.Close()
	})
	source := start(func() {
		itctrace.Touch("item", true)
		first.Send(7)
		if isShared {
			itctrace.Touch("total", true) // race: pipeline_race
		}
		first.Close()
	})
	second.Range(func(value int) bool {
		itctrace.Touch("item", false)
		return value == 14
	})
	stage.Wait()
	source.Wait()
}

// published is seen by two who both look without a lock first.
func published(isPlain bool) {
	var lock itctrace.Mutex
	var isThere itctrace.AtomicBool
	look := func() {
		if isPlain {
			itctrace.Touch("isThere", false) // race: published_race
		} else if isThere.Load() {
			itctrace.Touch("config", false)
			return
		}
		lock.Lock()
		defer lock.Unlock()
		if isPlain {
			itctrace.Touch("isThere", true) // race: published_race
		}
		itctrace.Touch("config", true)
		isThere.Store(true)
	}
	twice(look, look)
}

func lockOfTwo(isWrong bool) {
	var first, second itctrace.Mutex
	other := &first
	if isWrong {
		other = &second
	}
	change := func(lock *itctrace.Mutex) func() {
		return func() {
			lock.Lock()
			defer lock.Unlock()
			itctrace.Touch("stock", true) // race: wrong_lock
		}
	}
	twice(change(&first), change(other))
}

func cancelled(isLate bool) {
	ctx, cancel := itctrace.WithCancel(context.Background())
	below, release := itctrace.WithTimeout(ctx, time.Hour)
	defer release()
	waiting := start(func() {
		itctrace.Done(below)
		itctrace.Touch("stock", false) // race: cancelled_race
	})
	itctrace.Touch("stock", true)
	cancel()
	if isLate {
		itctrace.Touch("stock", true) // race: cancelled_race
	}
	waiting.Wait()
}

// cached reads under the lock, and writes under it where that is right.
func cached(isWrong bool) {
	var lock itctrace.RWMutex
	look := func() {
		lock.RLock()
		itctrace.Touch("cache", false) // race: cached_race
		if isWrong {
			itctrace.Touch("cache", true) // race: cached_race
		}
		lock.RUnlock()
		if !isWrong {
			lock.Lock()
			itctrace.Touch("cache", true)
			lock.Unlock()
		}
	}
	twice(look, look)
}

// polled looks at a flag under a lock again and again. The race is a change behind the setting of the flag.
func polled(isLate bool) {
	var lock itctrace.Mutex
	isReady := false
	polling := start(func() {
		for isSet := false; !isSet; {
			lock.Lock()
			itctrace.Touch("flag", false)
			isSet = isReady
			lock.Unlock()
		}
		itctrace.Touch("stock", false) // race: polled_race
	})
	itctrace.Touch("stock", true)
	lock.Lock()
	itctrace.Touch("flag", true)
	isReady = true
	lock.Unlock()
	if isLate {
		itctrace.Touch("stock", true) // race: polled_race
	}
	polling.Wait()
}

// lazy has whoever comes first make a value under the lock. The race is a change behind that.
func lazy(isLate bool) {
	var lock itctrace.Mutex
	isMade := false
	look := func() {
		lock.Lock()
		defer lock.Unlock()
		itctrace.Touch("made", false)
		if !isMade {
			itctrace.Touch("value", true)
			itctrace.Touch("made", true)
			isMade = true
		}
	}
	twice(func() {
		look()
		if isLate {
			itctrace.Touch("value", true) // race: lazy_race
		}
	}, func() {
		look()
		itctrace.Touch("value", false) // race: lazy_race
	})
}

// orders acquires two locks in both orders. With a gate around both, only one goroutine is there at once.
func orders(hasGate bool) {
	var gate, one, other itctrace.Mutex
	within := func(body func()) func() {
		return func() {
			if hasGate {
				gate.Lock()
				defer gate.Unlock()
			}
			body()
		}
	}
	twice(within(func() {
		one.Lock()   // deadlock: two_orders
		other.Lock() // deadlock: two_orders
		other.Unlock()
		one.Unlock()
	}), within(func() {
		other.Lock() // deadlock: two_orders
		one.Lock()   // deadlock: two_orders
		one.Unlock()
		other.Unlock()
	}))
}

// readOrders has one goroutine write under the lock that the other one reads under, or both read.
func readOrders(bothRead bool) {
	var table itctrace.RWMutex
	var lock itctrace.Mutex
	twice(func() {
		table.RLock() // deadlock: read_orders
		lock.Lock()   // deadlock: read_orders
		lock.Unlock()
		table.RUnlock()
	}, func() {
		lock.Lock() // deadlock: read_orders
		if bothRead {
			table.RLock()
			table.RUnlock()
		} else {
			table.Lock() // deadlock: read_orders
			table.Unlock()
		}
		lock.Unlock()
	})
}

// triedOrder gives back what it holds, if it does not get the other lock at once.
func triedOrder() {
	var one, other itctrace.Mutex
	twice(func() {
		one.Lock()
		other.Lock()
		other.Unlock()
		one.Unlock()
	}, func() {
		other.Lock()
		if one.TryLock() {
			one.Unlock()
		}
		other.Unlock()
	})
}

// crossedOrders acquires two locks in both orders, and releases the outer one first, or acquires that one behind a gate that is let go.
func crossedOrders(hasGate bool) {
	var gate, one, other itctrace.Mutex
	if hasGate {
		behind := func(first, second *itctrace.Mutex) func() {
			return func() {
				gate.Lock()
				first.Lock() // deadlock: gate_let_go
				gate.Unlock()
				second.Lock() // deadlock: gate_let_go
				second.Unlock()
				first.Unlock()
			}
		}
		twice(behind(&one, &other), behind(&other, &one))
		return
	}
	twice(func() {
		one.Lock()   // deadlock: crossed_orders
		other.Lock() // deadlock: crossed_orders
		one.Unlock()
		other.Unlock()
	}, func() {
		other.Lock() // deadlock: crossed_orders
		one.Lock()   // deadlock: crossed_orders
		other.Unlock()
		one.Unlock()
	})
}

// handOverHand releases each lock once the next one is held. Both goroutines go the same way, or each begins at another end.
func handOverHand(fromBothEnds bool) {
	var first, middle, last itctrace.Mutex
	walk := func(locks ...*itctrace.Mutex) func() {
		return func() {
			locks[0].Lock() // deadlock: both_ends
			for at, next := range locks[1:] {
				next.Lock() // deadlock: both_ends
				locks[at].Unlock()
			}
			locks[len(locks)-1].Unlock()
		}
	}
	if fromBothEnds {
		twice(walk(&first, &middle, &last), walk(&last, &middle, &first))
	} else {
		twice(walk(&first, &middle, &last), walk(&first, &middle, &last))
	}
}

// conditionOrders acquires the lock of a condition and another one in both orders.
func conditionOrders() {
	var lock, other itctrace.Mutex
	ready := itctrace.NewCond(&lock)
	twice(func() {
		lock.Lock()  // deadlock: condition_orders
		other.Lock() // deadlock: condition_orders
		ready.Signal()
		other.Unlock()
		lock.Unlock()
	}, func() {
		other.Lock() // deadlock: condition_orders
		lock.Lock()  // deadlock: condition_orders
		ready.Signal()
		lock.Unlock()
		other.Unlock()
	})
}

// waitOrders waits at a condition while it holds a lock that it has acquired later. Whoever is woken wants the first one again.
func waitOrders() {
	var lock, inner itctrace.Mutex
	ready := itctrace.NewCond(&lock)
	twice(func() {
		isWoken := make(chan bool)
		go func() {
			time.Sleep(100 * time.Millisecond)
			for {
				select {
				case <-isWoken:
					return
				default:
					ready.Signal()
					time.Sleep(time.Millisecond)
				}
			}
		}()
		lock.Lock()
		inner.Lock() // deadlock: wait_orders
		ready.Wait() // deadlock: wait_orders
		close(isWoken)
		inner.Unlock()
		lock.Unlock()
	}, func() {
		lock.Lock()  // deadlock: wait_orders
		inner.Lock() // deadlock: wait_orders
		inner.Unlock()
		lock.Unlock()
	})
}

// signalOrders acquires in both orders a lock that another goroutine releases in the end. It keeps nobody out.
func signalOrders() {
	var lock, signal itctrace.Mutex
	twice(func() {
		signal.Lock()
		lock.Lock()
		lock.Unlock()
		signal.Unlock()
	}, func() {
		lock.Lock()
		signal.Lock()
		start(signal.Unlock).Wait()
		lock.Unlock()
	})
}

// lockOfReaders is made of two locks: the first reader acquires that of writers under the other one, and the last one releases it so.
func lockOfReaders() {
	var guard, writing itctrace.Mutex
	readers := 0
	read := func() {
		guard.Lock()
		if readers++; readers == 1 {
			writing.Lock()
		}
		guard.Unlock()
		guard.Lock()
		if readers--; readers == 0 {
			writing.Unlock()
		}
		guard.Unlock()
	}
	twice(read, func() {
		writing.Lock()
		writing.Unlock()
		read()
	})
}
