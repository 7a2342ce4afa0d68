package itctrace

import "sync"

// Pool keeps values that may be used again, as sync.Pool does. Whoever gets a value comes after who put it there. Its zero value is empty.
type Pool struct {
	// New makes a value if none is there. It is nil if there is to be none then.
	New  func() any
	pool sync.Pool
}

var pooling = &what{hint: "pooled", giving: "put into pool", taking: "get from pool"}

// Put has a value be there to be used again.
//
//go:noinline
func (p *Pool) Put(value any) {
	goroutine, counter := here()
	if value != nil {
		p.pool.Put(&entry{value, marked(goroutine, pooling, siteAt(counter))})
	}
}

// Get takes a value out, or makes one.
//
//go:noinline
func (p *Pool) Get() any {
	goroutine, counter := here()
	known, isThere := p.pool.Get().(*entry)
	if !isThere {
		if p.New == nil {
			return nil
		}
		return p.New()
	}
	takeAlone(goroutine, known.given, siteAt(counter))
	return known.value
}
