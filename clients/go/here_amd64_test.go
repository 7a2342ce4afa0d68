package itctrace

import "testing"

// TestWhoAndWhereAreKnownAtOnce: neither the goroutine nor the line is looked for in a stack, which takes many times as long.
func TestWhoAndWhereAreKnownAtOnce(t *testing.T) {
	if numberAt == 0 || !isAsInStack() {
		t.Error("the goroutine or the counter is looked for in a stack")
	}
}
