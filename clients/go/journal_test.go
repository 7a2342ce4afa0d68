package itctrace

import (
	"testing"
	"time"
)

// TestLastReply: touches whose event is answered right before the end are in the journal, though they were not when the journal was written.
func TestLastReply(t *testing.T) {
	of := &tracer{isClosing: true}
	last := &touches{task: newTask("p"), fresh: []touch{{thing: "stock", site: nowhere}}}
	isOver := make(chan bool, 1)
	of.mutex.Lock()
	go func() { isOver <- of.sendSome() }()
	time.Sleep(longEnough) // It has looked for touches, and waits for the mutex.
	of.listMutex.Lock()
	of.listed = append(of.listed, last)
	of.listMutex.Unlock()
	of.mutex.Unlock()
	if <-isOver && len(last.fresh) > 0 {
		t.Error("the journal ends without the last touches")
	}
	if !of.sendSome() || len(last.fresh) > 0 {
		t.Error("the journal does not end")
	}
}
