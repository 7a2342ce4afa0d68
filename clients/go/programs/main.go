// Small programs with a race and without one, in pairs: clients/go_programs.py looks whether exactly the lines race that say so in a comment.
// What hands on by a channel of the language, as `done`, is no order that is reported: it only decides who comes first.
//
// Usage: go run ./programs NAME [WORDS]..
package main

import (
	"context"
	"fmt"
	"os"

	"hometturi.example/itctrace"
)

// programs has each program by its name.
var programs = map[string]func(){}

func add(more map[string]func()) {
	for name, program := range more {
		programs[name] = program
	}
}

func start(body func()) *itctrace.Routine {
	return itctrace.Go(context.Background(), func(context.Context) { body() })
}

// must gives the value; the program ends if there is none.
func must[T any](value T, err error) T {
	if err != nil {
		panic(err)
	}
	return value
}

func check(err error) {
	if err != nil {
		panic(err)
	}
}

func main() {
	if os.Args[1] == "early_end" {
		earlyEnd()
		return
	}
	defer itctrace.Begin().End()
	programs[os.Args[1]]()
	fmt.Println("done")
}
