package itctrace

import "sync"

// Once does something once. Whoever has called Do comes after that. Its zero value is ready.
type Once struct {
	once sync.Once
	done *token
}

var doneOnce = &what{hint: "once", giving: "done once", taking: "see it done"}

// Do calls the function if it is the first call.
//
//go:noinline
func (o *Once) Do(body func()) {
	goroutine, counter := here()
	o.once.Do(func() {
		defer func() { o.done = marked(goroutine, doneOnce, siteAt(counter)) }()
		body()
	})
	take(goroutine, o.done, siteAt(counter))
}

// OnceFunc gives a function that calls this one once. If that panics, each call panics with the same value.
func OnceFunc(body func()) func() {
	value := OnceValue(func() bool {
		body()
		return true
	})
	return func() { value() }
}

// OnceValue gives a function that calls this one once, and gives its value each time.
func OnceValue[T any](body func() T) func() T {
	var once Once
	var value T
	var fault any
	isDone := false
	return func() T {
		once.Do(func() {
			defer func() {
				if !isDone {
					fault = recover()
				}
			}()
			value = body()
			isDone = true
		})
		if !isDone {
			panic(fault)
		}
		return value
	}
}

type both[T, U any] struct {
	one   T
	other U
}

// OnceValues is the same of a function that gives two values.
func OnceValues[T, U any](body func() (T, U)) func() (T, U) {
	value := OnceValue(func() both[T, U] {
		one, other := body()
		return both[T, U]{one, other}
	})
	return func() (T, U) {
		given := value()
		return given.one, given.other
	}
}
