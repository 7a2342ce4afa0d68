// Small programs, each for one order that is reported by itself. A line that races says so in a comment, with the name of its program:
// clients/wrappers.py looks whether these lines are listed, and no others.
//
// Usage: go run ./wrappers NAME [WORDS]..
package main

import (
	"context"
	"fmt"
	"net/http"
	"net/http/httptest"
	"os"
	"runtime"
	"strconv"
	"strings"
	"time"

	"hometturi.example/itctrace"
)

const (
	many = 100_000
	few  = 3_000
	some = 1_000
	// turns are more than a trace has room for.
	turns = 20_000
)

// odd are names of tasks: too long, the same again, without letters, and those of tasks that are there already.
var odd = []string{strings.Repeat("a", 60), strings.Repeat("a", 60), "", "_", "ü 1-2", "root", "others"}

const oddThing = "\"naïve\"\t\\ 😀"

func readStock() {
	itctrace.Touch("stock", false) // race: after_hand_off before_end http_race
}

func writeStock() {
	itctrace.Touch("stock", true) // race: after_hand_off before_end read_lock_race http_race
}

func sell() {
	itctrace.Touch("stock", false) // race: lost_update plain_threads
	itctrace.Touch("stock", true)  // race: lost_update plain_threads
}

func start(body func()) *itctrace.Routine {
	return itctrace.Go(context.Background(), func(context.Context) { body() })
}

func inTwoGoroutines(body func()) {
	named := func(name string) *itctrace.Routine {
		return itctrace.Go(itctrace.Named(context.Background(), name), func(context.Context) { body() })
	}
	first, second := named("alice"), named("bob")
	first.Wait()
	second.Wait()
	itctrace.Touch("stock", true)
}

func plainGoroutines() {
	done := make(chan bool)
	for _, note := range []string{"first note", "second note"} {
		note := note
		go func() {
			sell()
			itctrace.Touch(note, true)
			itctrace.Touch(note, false) // Both are of one task.
			done <- true
		}()
	}
	<-done
	<-done
}

func locked() {
	var lock itctrace.Mutex
	inTwoGoroutines(func() {
		lock.Lock()
		defer lock.Unlock()
		sell()
	})
	lockTurns(turns) // A lock that nobody else acquires leaves nothing in the trace.
	crossedLocks()
	handedLock()
}

// crossedLocks: a lock that is released before one that was acquired later is meant to hand something over.
func crossedLocks() {
	var first, second itctrace.Mutex
	done := make(chan bool) // It gives no order that is reported.
	start(func() {
		itctrace.Touch("crossed", true)
		first.Lock()
		second.Lock()
		first.Unlock()
		second.Unlock()
		close(done)
	})
	<-done
	first.Lock()
	first.Unlock()
	itctrace.Touch("crossed", true)
}

// handedLock: so is a lock that another goroutine releases than the one that has acquired it.
func handedLock() {
	var lock itctrace.Mutex
	lock.Lock()
	start(func() {
		itctrace.Touch("handed", true)
		lock.Unlock()
	})
	lock.Lock()
	itctrace.Touch("handed", true)
}

// contended has two goroutines acquire one lock by turns.
func contended() {
	var lock itctrace.Mutex
	inTwoGoroutines(func() {
		for turn := 0; turn < some; turn++ {
			lock.Lock()
			itctrace.Touch("stock", true)
			lock.Unlock()
		}
	})
}

func triedLock() {
	var lock itctrace.Mutex
	var readLock itctrace.RWMutex
	inTwoGoroutines(func() {
		spin(lock.TryLock)
		itctrace.Touch("stock", true)
		lock.Unlock()
	})
	inTwoGoroutines(func() {
		spin(readLock.TryLock)
		itctrace.Touch("stock", true)
		readLock.Unlock()
		spin(readLock.TryRLock)
		itctrace.Touch("stock", false)
		readLock.RUnlock()
	})
}

func spin(tryLock func() bool) {
	for !tryLock() {
		runtime.Gosched()
	}
}

func oddNames() {
	for _, name := range odd {
		itctrace.Go(itctrace.Named(context.Background(), name), func(context.Context) { itctrace.Touch(oddThing, true) }).Wait()
	}
}

// luckyLock has one goroutine done with the stock before it acquires the lock, and the other one had it before.
func luckyLock() {
	var lock itctrace.Mutex
	done := make(chan bool)
	start(func() {
		itctrace.Touch("stock", true) // possible: lucky_lock
		lock.Lock()
		lock.Unlock()
		close(done)
	})
	<-done
	lock.Lock()
	lock.Unlock()
	itctrace.Touch("stock", true) // possible: lucky_lock
}

func condition() {
	var lock itctrace.Mutex
	isReady, condition := false, itctrace.NewCond(&lock)
	begun := make(chan bool) // It gives no order that is reported.
	waiting := start(func() {
		lock.Lock()
		writeStock()
		close(begun)
		for !isReady {
			condition.Wait()
		}
		lock.Unlock()
		readStock()
	})
	<-begun
	lock.Lock()
	writeStock()
	isReady = true
	condition.Broadcast()
	lock.Unlock()
	waiting.Wait()
}

func handOff(isTouchedAfter bool) {
	channel := itctrace.MakeChan[int](1)
	taker := start(func() {
		channel.Receive()
		readStock()
	})
	if !isTouchedAfter {
		writeStock()
	}
	var lock itctrace.Mutex // Its release and the item are two messages.
	lock.Lock()
	lock.Unlock()
	channel.Send(1)
	if isTouchedAfter {
		writeStock()
	}
	taker.Wait()
}

// otherCalls receives in each other way.
func otherCalls() {
	for _, receive := range []func(*itctrace.Chan[int]){
		func(channel *itctrace.Chan[int]) {
			for _, isThere := channel.TryReceive(); !isThere; _, isThere = channel.TryReceive() {
				runtime.Gosched()
			}
		},
		func(channel *itctrace.Chan[int]) { channel.ReceiveOr(context.Background()) },
	} {
		channel := itctrace.MakeChan[int](1)
		taker := start(func() {
			receive(channel)
			readStock()
		})
		writeStock()
		channel.Send(1)
		taker.Wait()
	}
	ctx, cancel := itctrace.WithCancel(context.Background())
	waiting := start(func() {
		itctrace.MakeChan[int](0).ReceiveOr(ctx)
		readStock()
	})
	writeStock()
	cancel()
	waiting.Wait()
	otherEnds()
}

// otherEnds: a goroutine ends by Goexit, too, and a channel is seen to be closed by each call that receives.
func otherEnds() {
	start(func() {
		writeStock()
		runtime.Goexit()
	}).Wait()
	readStock()
	for _, receive := range []func(*itctrace.Chan[int]){
		func(channel *itctrace.Chan[int]) { channel.TryReceive() },
		func(channel *itctrace.Chan[int]) { channel.ReceiveOr(context.Background()) },
	} {
		channel, isClosed := itctrace.MakeChan[int](1), make(chan bool)
		start(func() {
			writeStock()
			channel.Close()
			close(isClosed)
		})
		<-isClosed
		receive(channel)
		readStock()
	}
}

// rendezvous: without room in the channel, the sender comes after the receipt.
func rendezvous() {
	channel := itctrace.MakeChan[int](0)
	taker := start(func() {
		writeStock()
		channel.Receive()
	})
	channel.Send(1)
	readStock()
	taker.Wait()
}

// fullChannel: the sender of the second message comes after the receipt of the first one.
func fullChannel() {
	channel := itctrace.MakeChan[int](1)
	channel.Send(1)
	taker := start(func() {
		writeStock()
		channel.Receive()
	})
	channel.Send(2)
	readStock()
	taker.Wait()
}

// closedChannel: who sees the end comes after the first closing, and not after one that fails.
func closedChannel() {
	channel := itctrace.MakeChan[int](1)
	isClosed, isOver := make(chan bool), make(chan bool) // They give no order that is reported.
	taker := start(func() {
		<-isOver
		for _, isThere := channel.Receive(); isThere; _, isThere = channel.Receive() {
			fmt.Println("received")
		}
		readStock()
	})
	channel.Send(1)
	start(func() {
		writeStock()
		channel.Close()
		isClosed <- true
	})
	<-isClosed
	closeAgain(channel)
	isOver <- true
	taker.Wait()
}

func closeAgain(channel *itctrace.Chan[int]) {
	defer func() {
		if recover() == nil {
			panic("a channel was closed twice")
		}
	}()
	channel.Close()
}

// waitGroup waits for goroutines by one group, twice.
func waitGroup() {
	var group itctrace.WaitGroup
	for turn := 0; turn < 2; turn++ {
		for _, thing := range []string{"first", "second"} {
			thing, done := thing, make(chan bool) // The first one is done before the second one is added.
			group.Add(1)
			start(func() {
				itctrace.Touch(thing, true)
				group.Done()
				close(done)
			})
			<-done
		}
		group.Wait()
		itctrace.Touch("first", true)
		itctrace.Touch("second", true)
	}
}

type key struct{}

// cancelledContext waits for contexts below the one that is cancelled, and for that one.
func cancelledContext() {
	below := []func(context.Context) (context.Context, context.CancelFunc){
		itctrace.WithCancel,
		func(above context.Context) (context.Context, context.CancelFunc) {
			return itctrace.WithTimeout(above, time.Hour)
		},
		func(above context.Context) (context.Context, context.CancelFunc) {
			return context.WithValue(above, key{}, 1), func() {}
		},
	}
	for _, derive := range below {
		ctx, cancel := itctrace.WithTimeout(context.Background(), time.Hour)
		inner, release := derive(ctx)
		waiting := itctrace.Go(inner, func(ctx context.Context) {
			if itctrace.Done(ctx) != nil {
				readStock()
			}
		})
		writeStock()
		cancel()
		waiting.Wait()
		release()
	}
	writeStock()
	afterCancel()
}

// afterCancel: what is called after a context comes after its cancelling, and after the call that has said so. What was stopped is not called.
func afterCancel() {
	ctx, cancel := itctrace.WithCancel(context.Background())
	isDone := make(chan bool) // It gives no order that is reported.
	writeStock()
	itctrace.AfterFunc(ctx, func() {
		readStock()
		itctrace.Touch("prices", false)
		close(isDone)
	})
	stop := itctrace.AfterFunc(ctx, func() { panic("it was stopped") })
	if !stop() || stop() {
		panic("it was not stopped once")
	}
	cancelling := start(func() {
		itctrace.Touch("prices", true)
		cancel()
	})
	<-isDone
	cancelling.Wait()
}

// lateCancel: contexts of the language were done already when the ones above them were cancelled.
func lateCancel() {
	ctx, cancel := itctrace.WithCancel(context.Background())
	stopped, stop := context.WithCancel(ctx)
	below, release := itctrace.WithCancel(stopped)
	defer release()
	late, end := context.WithTimeout(ctx, time.Millisecond)
	defer end()
	over, finish := itctrace.WithTimeout(ctx, time.Millisecond)
	defer finish()
	stop()
	<-late.Done()
	<-over.Done()
	done := make(chan bool)
	start(func() {
		for _, thing := range []string{"stopped", "below", "late", "over"} {
			itctrace.Touch(thing, true) // race: late_cancel
		}
		cancel()
		close(done)
	})
	<-done
	itctrace.Done(stopped)
	itctrace.Touch("stopped", false) // race: late_cancel
	itctrace.Done(below)
	itctrace.Touch("below", false) // race: late_cancel
	itctrace.Done(late)
	itctrace.Touch("late", false) // race: late_cancel
	itctrace.Done(over)
	itctrace.Touch("over", false) // race: late_cancel
}

func readLock(isWrittenByBoth bool) {
	var lock itctrace.RWMutex
	inTwoGoroutines(func() {
		if isWrittenByBoth {
			lock.RLock()
			writeStock()
			time.Sleep(200 * time.Millisecond) // Both hold the lock at once.
			lock.RUnlock()
			return
		}
		lock.Lock()
		writeStock()
		lock.Unlock()
		lock.RLock()
		readStock()
		lock.RUnlock()
	})
}

// readFirst has one goroutine read under the lock before the other one writes under it.
func readFirst() {
	var lock itctrace.RWMutex
	done := make(chan bool)
	start(func() {
		lock.RLock()
		readStock()
		lock.RUnlock()
		close(done)
	})
	<-done
	lock.Lock()
	writeStock()
	lock.Unlock()
}

// writerGoesOn has a goroutine write and read under the lock, and then touch the stock. Who reads under the lock comes after the writing,
// and not after what the writer does next.
func writerGoesOn() {
	var lock itctrace.RWMutex
	done := make(chan bool)
	start(func() {
		lock.Lock()
		lock.Unlock()
		lock.RLock()
		lock.RUnlock()
		itctrace.Touch("stock", true) // race: writer_goes_on
		close(done)
	})
	<-done
	lock.RLock()
	itctrace.Touch("stock", false) // race: writer_goes_on
	lock.RUnlock()
}

// web asks a server of this process, by a client that is traced or by another one.
func web(client *http.Client) {
	server := httptest.NewServer(itctrace.Handler(http.HandlerFunc(func(response http.ResponseWriter, _ *http.Request) {
		readStock()
		fmt.Fprint(response, "read")
	})))
	defer server.Close()
	writeStock()
	response, err := client.Get(server.URL)
	if err != nil {
		panic(err)
	}
	response.Body.Close()
	if client.Transport != nil {
		writeStock()
		answerHere(func(http.ResponseWriter) {})
		answerHere(func(response http.ResponseWriter) { response.WriteHeader(http.StatusNoContent) })
		answerHere(func(response http.ResponseWriter) { response.(http.Flusher).Flush() })
		askInner()
	}
}

// answerHere answers a request in this goroutine, which goes on as itself then. The response is a message, also if nobody writes it. Its
// head is written once.
func answerHere(begin func(http.ResponseWriter)) {
	handler := itctrace.Handler(http.HandlerFunc(func(response http.ResponseWriter, _ *http.Request) {
		readStock()
		begin(response)
	}))
	response := httptest.NewRecorder()
	request := httptest.NewRequest("GET", "/", nil)
	request.Header.Set(itctrace.Header, itctrace.Outgoing())
	handler.ServeHTTP(response, request)
	itctrace.Incoming(response.Result().Header.Get(itctrace.Header))
	writeStock()
}

type inner struct{ count int }

func (i *inner) RoundTrip(*http.Request) (*http.Response, error) {
	i.count++
	return httptest.NewRecorder().Result(), nil
}

func askInner() {
	own := &inner{}
	client := http.Client{Transport: itctrace.Transport{Inner: own}}
	must(client.Get("http://nowhere.invalid"))
	if own.count != 1 {
		panic("the inner transport was not asked once")
	}
}

func beforeEnd() {
	writing := start(writeStock)
	readStock()
	writing.Wait()
}

func touchMany() {
	inTwoGoroutines(func() {
		own := new(int)
		for turn := 0; turn < many; turn++ {
			itctrace.Touch(fmt.Sprintf("own %p", own), true)
		}
	})
}

func filling() {
	channel := itctrace.MakeChan[int](many)
	for turn := 0; turn < many; turn++ {
		channel.Send(turn)
		itctrace.Touch("stock", true)
	}
}

func lockTurns(turns int) {
	var lock itctrace.Mutex
	for turn := 0; turn < turns; turn++ {
		lock.Lock()
		itctrace.Touch("stock", true)
		lock.Unlock()
	}
}

// lockHandOvers has two goroutines acquire one lock by turns. What hands the turns on is no order that is reported.
func lockHandOvers() {
	var lock itctrace.Mutex
	turns := [2]chan bool{make(chan bool, 1), make(chan bool, 1)}
	work := func(own int) func() {
		return func() {
			for turn := 0; turn < few/2; turn++ {
				<-turns[own]
				lock.Lock()
				itctrace.Touch("stock", true)
				lock.Unlock()
				turns[1-own] <- true
			}
		}
	}
	first, second := start(work(0)), start(work(1))
	turns[0] <- true
	first.Wait()
	second.Wait()
}

func channelTurns() {
	channel, isDone := itctrace.MakeChan[int](few), make(chan bool)
	taker := start(func() {
		for turn := 0; turn < few; turn++ {
			channel.Receive()
			itctrace.Touch("stock", true)
			isDone <- true
		}
	})
	for turn := 0; turn < few; turn++ {
		itctrace.Touch("item", true)
		channel.Send(turn)
		<-isDone
	}
	taker.Wait()
}

func across() {
	itctrace.TouchAcross("row", false) // race: across
	itctrace.TouchAcross("row", true)  // race: across
	itctrace.Touch("own \"row\"", true)
}

// byHand has a second task of this process, and reports what both do.
func byHand() {
	reporter := must(itctrace.FromEnvironment())
	own, child, message := reporter.Task, reporter.Name("child"), reporter.Name("message")
	must(reporter.Spawn(own, child))
	must(reporter.Touch(child, "stock", true)) // race: by_hand
	must(reporter.Touch(own, "stock", false))  // race: by_hand
	must(reporter.TouchAcross(own, "row", true))
	must(reporter.Send(own, message))
	must(reporter.Recv(child, message))
	must(reporter.TouchAcross(child, "row", true))
	must(reporter.End(child))
	must(reporter.Join(own, child))
	must(reporter.Touch(own, "stock", true))
	if err := reporter.Close(); err != nil {
		panic(err)
	}
}

// must gives the value; the program ends if there is none.
func must[T any](value T, err error) T {
	if err != nil {
		panic(err)
	}
	return value
}

// steps does the steps of a file one after the other, each in its own goroutine. What hands them on is no order that is reported.
type steps struct {
	inboxes   map[string]chan func()
	routines  map[string]*itctrace.Routine
	done      chan bool
	locks     [2]itctrace.Mutex
	readLocks [2]itctrace.RWMutex
	queues    [2]*itctrace.Chan[int]
}

func runSteps(file string) {
	text, err := os.ReadFile(file)
	if err != nil {
		panic(err)
	}
	all := &steps{inboxes: map[string]chan func(){}, routines: map[string]*itctrace.Routine{}, done: make(chan bool)}
	all.queues = [2]*itctrace.Chan[int]{itctrace.MakeChan[int](few), itctrace.MakeChan[int](few)}
	for _, line := range strings.Split(strings.TrimSpace(string(text)), "\n") {
		words := strings.Split(line, " ")
		switch {
		case words[1] == "end":
			close(all.inboxes[words[0]])
		case words[0] == "main":
			all.step(words[1], words[2])
		default:
			all.inboxes[words[0]] <- func() { all.step(words[1], words[2]) }
			<-all.done
		}
	}
}

func (s *steps) step(operation, word string) {
	switch operation {
	case "touch":
		itctrace.Touch(word, true)
	case "spawn":
		inbox := make(chan func(), 1)
		s.inboxes[word] = inbox
		s.routines[word] = start(func() {
			for step := range inbox {
				step()
				s.done <- true
			}
		})
	case "join":
		s.routines[word].Wait()
	case "wait":
		time.Sleep(must(time.ParseDuration(word + "ms")))
	default:
		s.stepAt(operation, must(strconv.Atoi(word)))
	}
}

func (s *steps) stepAt(operation string, place int) {
	map[string]func(){
		"lock":         s.locks[place].Lock,
		"unlock":       s.locks[place].Unlock,
		"write_lock":   s.readLocks[place].Lock,
		"write_unlock": s.readLocks[place].Unlock,
		"read_lock":    s.readLocks[place].RLock,
		"read_unlock":  s.readLocks[place].RUnlock,
		"put":          func() { s.queues[place].Send(place) },
		"take":         func() { s.queues[place].Receive() },
	}[operation]()
}

func receiver(file string) {
	itctrace.Incoming(waitFor(file))
	itctrace.TouchAcross("row", true)
}

func sender(file string) {
	itctrace.TouchAcross("row", true)
	tell(file, itctrace.Outgoing())
}

func main() {
	defer itctrace.Begin().End()
	programs := map[string]func(){
		"lost_update":    func() { inTwoGoroutines(sell) },
		"plain_threads":  plainGoroutines,
		"locked":         locked,
		"lucky_lock":     luckyLock,
		"contended":      contended,
		"tried_lock":     triedLock,
		"odd_names":      oddNames,
		"other_calls":    otherCalls,
		"condition":      condition,
		"hand_off":       func() { handOff(false) },
		"after_hand_off": func() { handOff(true) },
		"rendezvous":     rendezvous,
		"full_channel":   fullChannel,
		"closed_channel": closedChannel,
		"wait_group":     waitGroup,
		"context":        cancelledContext,
		"late_cancel":    lateCancel,
		"read_lock":      func() { readLock(false) },
		"read_first":     readFirst,
		"read_lock_race": func() { readLock(true) },
		"writer_goes_on": writerGoesOn,
		"http":           func() { web(&http.Client{Transport: itctrace.Transport{}}) },
		"http_race":      func() { web(http.DefaultClient) },
		"before_end":     beforeEnd,
		"many":           touchMany,
		"filling":        filling,
		"lock_turns":     func() { lockTurns(many) },
		"lock_handed":    lockHandOvers,
		"channel_turns":  channelTurns,
		"across":         across,
		"by_hand":        byHand,
		"steps":          func() { runSteps(os.Args[2]) },
		"receiver":       func() { receiver(os.Args[2]) },
		"sender":         func() { sender(os.Args[2]) },
		"web_server":     func() { serve(os.Args[2], os.Args[3], os.Args[4]) },
		"web_client":     func() { ask(os.Args[2], os.Args[3]) },
	}
	programs[os.Args[1]]()
	fmt.Println("done")
}
