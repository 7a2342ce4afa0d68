package main

import (
	"bufio"
	"fmt"
	"io"
	"net"
	"net/http"
	"net/http/httptest"
	"os"
	"strings"

	"hometturi.example/itctrace"
)

func init() {
	add(map[string]func(){
		"requests":       func() { requests(turnsAsked(), true) },
		"plain_requests": func() { requests(turnsAsked(), false) },
		"body":           func() { body(false) },
		"body_race":      func() { body(true) },
		"writer":         writer,
	})
}

const (
	oneIn = 1000
	great = 100_000
)

func get(client *http.Client, address string) string {
	response := must(client.Get(address))
	text := string(must(io.ReadAll(response.Body)))
	check(response.Body.Close())
	return text
}

// requests answers so many requests. One in a thousand forgets the lock.
func requests(count int, isTraced bool) {
	var lock itctrace.Mutex
	number := make(chan int, 1)
	var handler http.Handler = http.HandlerFunc(func(response http.ResponseWriter, _ *http.Request) {
		if <-number%oneIn == 0 {
			itctrace.Touch("total", true) // race: requests
		} else {
			lock.Lock()
			itctrace.Touch("stock", true)
			lock.Unlock()
		}
		fmt.Fprint(response, "done")
	})
	if isTraced {
		handler = itctrace.Handler(handler)
	}
	server := httptest.NewServer(handler)
	defer server.Close()
	client := http.DefaultClient
	if len(os.Args) > 3 {
		client = &http.Client{Transport: itctrace.Transport{}}
	}
	keepsLittle(func() {
		for turn := 0; turn < count; turn++ {
			number <- turn
			get(client, server.URL)
		}
	})
}

// body has the one who asks come after all that was done before the end of the body. The race is a touch before that was read.
func body(isEarly bool) {
	for place, write := range []func(http.ResponseWriter){
		func(response http.ResponseWriter) { fmt.Fprint(response, "one") },
		func(response http.ResponseWriter) { fmt.Fprint(response, strings.Repeat("one", great)) },
		func(response http.ResponseWriter) { response.(http.Flusher).Flush() },
		func(response http.ResponseWriter) {
			response.Header().Set("Content-Length", fmt.Sprint(great+len("end")))
			io.Copy(response, strings.NewReader(strings.Repeat("1", great)))
		},
	} {
		isSent, isTouched := make(chan bool, 1), make(chan bool)
		server := httptest.NewServer(itctrace.Handler(http.HandlerFunc(func(response http.ResponseWriter, _ *http.Request) {
			itctrace.Touch("head", true)
			write(response)
			if place > 0 {
				isSent <- true
				if isEarly {
					<-isTouched
				}
				itctrace.Touch("stock", true) // race: body_race
			}
			io.WriteString(response, "end")
		})))
		client := &http.Client{Transport: itctrace.Transport{}}
		response := must(client.Get(server.URL))
		itctrace.Touch("head", false)
		if place > 0 && isEarly {
			<-isSent
			itctrace.Touch("stock", true) // race: body_race
			close(isTouched)
		}
		text := string(must(io.ReadAll(response.Body)))
		if !strings.HasSuffix(text, "end") {
			panic("the body is cut")
		}
		if !isEarly {
			itctrace.Touch("stock", true)
		}
		server.Close()
	}
}

// writer: a handler finds what the server's writer has, and nothing that it has not.
func writer() {
	server := httptest.NewServer(itctrace.Handler(http.HandlerFunc(func(response http.ResponseWriter, _ *http.Request) {
		if _, isThere := response.(http.Pusher); isThere {
			panic("nobody can push here")
		}
		connection, _, err := response.(http.Hijacker).Hijack()
		check(err)
		fmt.Fprint(connection, "hijacked\n")
		check(connection.Close())
	})))
	defer server.Close()
	connection := must(net.Dial("tcp", server.Listener.Addr().String()))
	fmt.Fprintf(connection, "GET / HTTP/1.1\r\nHost: here\r\n%s: %s\r\n\r\n", itctrace.Header, itctrace.Outgoing())
	if must(bufio.NewReader(connection).ReadString('\n')) != "hijacked\n" {
		panic("it was not hijacked")
	}
	recorder := httptest.NewRecorder()
	request := httptest.NewRequest("GET", "/", nil)
	request.Header.Set(itctrace.Header, itctrace.Outgoing())
	itctrace.Handler(http.HandlerFunc(func(response http.ResponseWriter, _ *http.Request) {
		if _, isThere := response.(http.Hijacker); isThere {
			panic("nobody can hijack here")
		}
		response.(http.Flusher).Flush()
	})).ServeHTTP(recorder, request)
	if !recorder.Flushed {
		panic("it was not flushed")
	}
}
