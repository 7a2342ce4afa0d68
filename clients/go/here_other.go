//go:build !amd64

package itctrace

// here tells nothing on this machine: who calls, and where, is looked for in a stack.
func here() (goroutine uint64, counter uintptr) { return 0, 0 }

func lookWhereWeAre() {}
