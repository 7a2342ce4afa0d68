package main

import (
	"context"
	"fmt"
	"io"
	"net"
	"net/http"
	"os"
	"strconv"
	"strings"
	"time"

	"hometturi.example/itctrace"
)

const traced = "traced"

// serve answers so many requests at a free port, which is told in the file. clients/web.py runs it beside clients of other languages.
func serve(file, count, how string) {
	left, err := strconv.Atoi(count)
	if err != nil {
		panic(err)
	}
	answered := make(chan bool, left)
	itctrace.Touch("prices", true) // race: plain_server
	var handler http.Handler = http.HandlerFunc(func(response http.ResponseWriter, _ *http.Request) {
		look()
		fmt.Fprint(response, "read")
		answered <- true
	})
	if how == traced {
		handler = itctrace.Handler(handler)
	}
	door, err := net.Listen("tcp", "127.0.0.1:0")
	if err != nil {
		panic(err)
	}
	server := http.Server{Handler: handler}
	go server.Serve(door)
	tell(file, strconv.Itoa(door.Addr().(*net.TCPAddr).Port))
	for ; left > 0; left-- {
		<-answered
	}
	if err := server.Shutdown(context.Background()); err != nil {
		panic(err)
	}
}

func look() {
	itctrace.TouchAcross("row", false) // race: web_server odd_heads two_requests
	itctrace.Touch("prices", false)    // race: plain_server
	itctrace.Touch("log", true)        // race: odd_heads two_requests
}

// ask writes before and after a request.
func ask(file, how string) {
	port := waitFor(file)
	client := http.DefaultClient
	if how == traced {
		client = &http.Client{Transport: itctrace.Transport{}}
	}
	itctrace.TouchAcross("row", true) // race: web_client
	response, err := client.Get("http://127.0.0.1:" + port)
	if err != nil {
		panic(err)
	}
	body, err := io.ReadAll(response.Body)
	if err != nil {
		panic(err)
	}
	response.Body.Close()
	itctrace.TouchAcross("row", true) // race: web_client
	fmt.Println(string(body))
}

func tell(file, text string) {
	if err := os.WriteFile(file+".new", []byte(text), 0o666); err != nil {
		panic(err)
	}
	if err := os.Rename(file+".new", file); err != nil {
		panic(err)
	}
}

func waitFor(file string) string {
	for {
		if text, err := os.ReadFile(file); err == nil {
			return strings.TrimSpace(string(text))
		}
		time.Sleep(10 * time.Millisecond)
	}
}
