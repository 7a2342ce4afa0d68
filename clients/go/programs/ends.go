package main

import (
	"context"
	"fmt"
	"log"
	"os"
	"os/exec"
	"os/signal"
	"runtime"
	"sync"
	"syscall"
	"time"

	"hometturi.example/itctrace"
)

func init() {
	add(map[string]func(){
		"late_goroutine": lateGoroutine,
		"ping_pong":      pingPong,
		"exits":          exits,
		"panics":         panics,
		"fatal":          fatal,
		"service":        service,
		"plain_service":  plainService,
		"kid":            kid,
		"parent":         parent,
		"commands":       func() { commands(false) },
		"commands_race":  func() { commands(true) },
		"two_kids":       twoKids,
		"victim":         victim,
		"successor":      func() { itctrace.TouchAcross("file", true) },
	})
}

// earlyEnd has its trace end at once, and goes on.
func earlyEnd() {
	itctrace.Begin().End()
	itctrace.Touch("stock", true)
	fmt.Println("done")
}

// lateGoroutine has a goroutine go on behind the end of the trace, which main waits for.
func lateGoroutine() {
	var waiting sync.WaitGroup
	isEnded := make(chan bool)
	waiting.Add(1)
	start(func() {
		itctrace.Touch("stock", true)
		<-isEnded
		itctrace.Touch("stock", true)
		waiting.Done()
	})
	itctrace.Begin().End()
	close(isEnded)
	waiting.Wait()
}

// pingPong has two goroutines hand an item to and fro for ever.
func pingPong() {
	there, back := itctrace.MakeChan[int](0), itctrace.MakeChan[int](0)
	start(func() {
		for {
			there.Send(1)
			back.Receive()
			itctrace.Touch("ball", true)
		}
	})
	isBegun := make(chan bool)
	start(func() {
		for turn := 0; ; turn++ {
			there.Receive()
			itctrace.Touch("ball", true)
			back.Send(1)
			if turn == 10 {
				close(isBegun)
			}
		}
	})
	<-isBegun
}

// race has two goroutines touch the stock without an order.
func race() {
	isDone := make(chan bool)
	go func() {
		itctrace.Touch("stock", true) // race: exits panics fatal plain_service
		close(isDone)
	}()
	<-isDone
	itctrace.Touch("stock", true) // race: exits panics fatal plain_service
}

func exits() {
	race()
	fmt.Println("done")
	itctrace.Exit(3)
}

// panics ends by a panic in another goroutine.
func panics() {
	fmt.Println("done")
	start(func() {
		race()
		panic("it is meant")
	}).Wait()
	select {}
}

func fatal() {
	fmt.Println("done")
	race()
	itctrace.Flush()
	log.Fatal("it is meant")
}

// service ends by SIGTERM as most services of Go do.
func service() {
	ctx, stop := signal.NotifyContext(context.Background(), syscall.SIGTERM)
	defer stop()
	itctrace.TouchAcross("row", true)
	fmt.Println("ready")
	<-ctx.Done()
	itctrace.TouchAcross("row", true)
}

// plainService has no handler of its own for SIGTERM.
func plainService() {
	itctrace.EndBy(syscall.SIGTERM)
	race()
	fmt.Println("done")
	fmt.Println("ready")
	select {}
}

func kid() { itctrace.TouchAcross("file", true) }

// parent runs a child process by the package of the language.
func parent() {
	itctrace.TouchAcross("file", true)
	check(exec.Command(os.Args[0], "kid").Run())
	itctrace.TouchAcross("file", true)
	must(exec.Command(os.Args[0], "kid").Output())
	itctrace.TouchAcross("file", true)
}

// commands starts a child process, and waits for it later. What it does in between is beside the child.
func commands(isBeside bool) {
	command := itctrace.Command(os.Args[0], "kid_beside")
	if !isBeside {
		command = itctrace.Command(os.Args[0], "kid")
	}
	itctrace.TouchAcross("file", true)
	check(command.Start())
	if isBeside {
		itctrace.TouchAcross("beside", true) // race: commands_race
	}
	check(command.Wait())
	itctrace.TouchAcross("file", true)
	if string(must(itctrace.Command(os.Args[0], "kid").Output())) != "done\n" {
		panic("another output")
	}
}

func init() {
	programs["kid_beside"] = func() {
		itctrace.TouchAcross("beside", true) // race: commands_race
	}
}

// twoKids run at the same time, and each after what was done before.
func twoKids() {
	itctrace.TouchAcross("file", true)
	var all itctrace.Group
	for range [2]bool{} {
		all.Go(func() error { return itctrace.Command(os.Args[0], "reader").Run() })
	}
	check(all.Wait())
	itctrace.TouchAcross("file", true)
}

func init() { programs["reader"] = func() { itctrace.TouchAcross("file", false) } }

// victim waits to be killed.
func victim() {
	start(func() { itctrace.TouchAcross("file", true) }).Wait()
	itctrace.TouchAcross("file", true)
	itctrace.Flush()
	check(os.WriteFile(os.Args[2], nil, 0o666))
	for {
		runtime.Gosched()
		time.Sleep(time.Millisecond)
	}
}
