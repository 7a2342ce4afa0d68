// Makes every call of the client: see clients/test.
//
// Usage: go run ./check PORT TENANT PORT_OF_CUT_REPLIES
package main

import (
	"errors"
	"fmt"
	"log"
	"os"
	"strconv"
	"strings"

	"hometturi.example/itctrace"
)

const tasks, events = 4, 25

// must gives a value; the program ends where there is none.
func must[T any](value T, err error) T {
	if err != nil {
		log.Fatal(err)
	}
	return value
}

// code is that with which the call was refused, or "closed" where there is no whole reply.
func code[T any](_ T, err error) string {
	var refused itctrace.Refused
	switch {
	case err == nil:
		return "answered"
	case errors.As(err, &refused):
		return strconv.Itoa(refused.Code)
	}
	return "closed"
}

// text writes a list as the others do.
func text(list []int) string {
	return strings.ReplaceAll(fmt.Sprint(list), " ", ", ")
}

// work reports for one task, beside others; it tells whether each reply was to its own request, and came in order.
func work(session *itctrace.Session, task string, done chan<- bool) {
	isRight := true
	var reported []int
	for len(reported) < events {
		event := must(session.Local(task))
		isRight = isRight && (len(reported) == 0 || reported[len(reported)-1] < event)
		reported = append(reported, event)
	}
	for _, event := range reported {
		isRight = isRight && must(session.Event(event)).Task == task
	}
	done <- isRight
}

func main() {
	port, tenant, cut := must(strconv.Atoi(os.Args[1])), os.Args[2], must(strconv.Atoi(os.Args[3]))
	session, asking := must(itctrace.Open("report", tenant, port)), must(itctrace.Open("view", tenant, port))
	fmt.Println(must(session.Local("root")), must(session.Spawn("root", "a")), must(session.Local("a")),
		must(session.Local("root")), must(session.Send("a", "m")), must(session.Recv("root", "m")), must(session.End("a")),
		must(session.Join("root", "a")))
	fmt.Println(must(asking.Order(4, 5)), must(asking.Order(6, 5)), text(must(asking.Past(5))), text(must(asking.Concurrent(5))),
		text(must(asking.Past(1))), text(must(asking.Cut(6))))
	event := must(asking.Event(6))
	state, last, err := asking.Task("a")
	must(state, err)
	sent, received, err := asking.Message("m")
	must(sent, err)
	counted, named, messages, err := asking.Count()
	must(counted, err)
	fmt.Println(event.Kind, event.Task, event.Name, text(event.Follows), must(asking.Stamp(6)), state, last, sent, text(received),
		counted, named, messages)
	fmt.Println(code(session.Local("nobody")), code(session.Local("a")), code(session.Send("root", "m")), code(asking.Local("root")),
		code(session.Past(9)), code(session.Local("\u00e4")), code(session.Local("root\nlocal root")),
		code(itctrace.Open("report", tenant, port)), code(itctrace.Open("report", "nobody", port)))
	done := make(chan bool)
	for number := 0; number < tasks; number++ {
		must(session.Spawn("root", fmt.Sprint("t", number)))
	}
	for number := 0; number < tasks; number++ {
		go work(session, fmt.Sprint("t", number), done)
	}
	right := 0
	for number := 0; number < tasks; number++ {
		if <-done {
			right++
		}
	}
	counted, _, _, err = asking.Count()
	fmt.Println(right, must(counted, err))
	broken := must(itctrace.Open("report", tenant, cut))
	fmt.Println(code(session.Request("quit")), code(broken.Local("root")))
}
