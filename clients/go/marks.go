package itctrace

import "sync"

// Token stands for an order that the program knows of, and that nothing else here follows. Its zero value is ready.
type Token struct {
	mutex  sync.Mutex
	places gathered
}

var telling = &what{hint: "mark", giving: "before", taking: "after"}

// Before has what this goroutine did by now come before whoever calls After with the same token from now on. It waits for nobody.
//
//go:noinline
func Before(token *Token) {
	if goroutine, counter := here(); isOn() {
		token.before(own(goroutine), siteAt(counter))
	}
}

func (t *Token) before(of *task, at *site) {
	t.mutex.Lock()
	defer t.mutex.Unlock()
	if known := t.places.of(of); known != nil {
		dropped(known)
	}
	t.places.put(markOf(of, telling, at))
}

// After has this goroutine come after all calls of Before with the same token by now.
//
//go:noinline
func After(token *Token) {
	if goroutine, counter := here(); isOn() {
		token.after(own(goroutine), siteAt(counter))
	}
}

func (t *Token) after(by *task, at *site) {
	t.mutex.Lock()
	defer t.mutex.Unlock()
	t.places.takeAll(by, at)
}
