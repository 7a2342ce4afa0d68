package itctrace

import "runtime"

const (
	// mostOfGoroutine is how many bytes of what the runtime keeps of a goroutine are looked through for its number.
	mostOfGoroutine = 256
	trials          = 4
)

// numberAt is where the runtime keeps a goroutine's number, behind the beginning of what it keeps of the goroutine. It is 0 if that is
// not known, or if the frames of calls are not as they are expected.
var numberAt uintptr

// framesUp is 1 if a frame of the compiler lies between here and the function that calls it, and else 0.
var framesUp uintptr

// here tells which goroutine calls, and the counter behind the call of the function that calls this one. Both are 0 if they are to be
// looked for in a stack. The function that calls here must not be inlined.
func here() (goroutine uint64, counter uintptr)

func wordOfGoroutine(at uintptr) uint64

// lookWhereWeAre finds out what here has to know, by several goroutines, and makes sure that it tells what a stack tells.
func lookWhereWeAre() {
	candidates := map[uintptr]int{}
	inGoroutines(func() {
		number := numberOf()
		for at := uintptr(8); at < mostOfGoroutine; at += 8 {
			if wordOfGoroutine(at) == number {
				candidates[at]++
			}
		}
	})
	for at := uintptr(8); at < mostOfGoroutine; at += 8 {
		if candidates[at] == trials {
			numberAt = at
			break
		}
	}
	for framesUp = 0; framesUp < 2; framesUp++ {
		isRight := true
		inGoroutines(func() { isRight = isRight && isAsInStack() })
		if isRight {
			return
		}
	}
	numberAt, framesUp = 0, 0
}

func inGoroutines(look func()) {
	isDone := make(chan bool)
	for trial := 0; trial < trials; trial++ {
		go func() {
			defer func() { isDone <- true }()
			look()
		}()
		<-isDone
	}
}

//go:noinline
func isAsInStack() bool {
	goroutine, counter := here()
	var counters [1]uintptr
	runtime.Callers(2, counters[:])
	return goroutine == numberOf() && counter == counters[0]
}
