package itctrace

import "sync"

// Map is a sync.Map. Whoever finds what was stored comes after who stored it. Who finds nothing comes after nobody. Its zero value is empty.
type Map struct {
	inner sync.Map
}

// entry is a value of a map, and the place where it was stored.
type entry struct {
	value any
	given *token
}

var mapping = &what{hint: "entry", giving: "store in map", taking: "load from map"}

func newEntry(value any, goroutine uint64, counter uintptr) *entry {
	return &entry{value, marked(goroutine, mapping, siteAt(counter))}
}

// found gives the value of an entry that was found, after who stored it.
func found(known any, isThere bool, goroutine uint64, counter uintptr) (any, bool) {
	if !isThere {
		return nil, false
	}
	one := known.(*entry)
	take(goroutine, one.given, siteAt(counter))
	return one.value, true
}

// Load gives the value of a key, if there is one.
//
//go:noinline
func (m *Map) Load(key any) (value any, isThere bool) {
	goroutine, counter := here()
	known, isThere := m.inner.Load(key)
	return found(known, isThere, goroutine, counter)
}

// Store changes the value of a key.
//
//go:noinline
func (m *Map) Store(key, value any) {
	goroutine, counter := here()
	m.inner.Store(key, newEntry(value, goroutine, counter))
}

// LoadOrStore gives the value of a key if there is one, and stores this one if there is none.
//
//go:noinline
func (m *Map) LoadOrStore(key, value any) (actual any, isThere bool) {
	goroutine, counter := here()
	made := newEntry(value, goroutine, counter)
	known, isThere := m.inner.LoadOrStore(key, made)
	if !isThere {
		return value, false
	}
	dropped(made.given)
	return found(known, true, goroutine, counter)
}

// LoadAndDelete takes a key out, and gives its value if there was one.
//
//go:noinline
func (m *Map) LoadAndDelete(key any) (value any, wasThere bool) {
	goroutine, counter := here()
	known, isThere := m.inner.LoadAndDelete(key)
	return found(known, isThere, goroutine, counter)
}

// Delete takes a key out.
//
//go:noinline
func (m *Map) Delete(key any) { m.inner.Delete(key) }

// Range calls the function for each key and its value, until that gives false.
//
//go:noinline
func (m *Map) Range(look func(key, value any) bool) {
	goroutine, counter := here()
	m.inner.Range(func(key, known any) bool {
		value, _ := found(known, true, goroutine, counter)
		return look(key, value)
	})
}
