package itctrace

import (
	"sync"
	"sync/atomic"
)

// stored is the last change of an atomic value. Whoever sees what was stored comes after it.
type stored struct {
	mutex sync.Mutex
	last  *holder
}

var storing = &what{hint: "atomic", giving: "store", taking: "load"}

// do looks at the value and may change it, and has the goroutine come after the last change. It tells whether it changes it.
func (s *stored) do(goroutine uint64, counter uintptr, looks bool, act func() (changes bool)) {
	if !isOn() {
		act()
		return
	}
	by, at := own(goroutine), siteAt(counter)
	s.mutex.Lock()
	defer s.mutex.Unlock()
	if s.last == nil {
		s.last = newHolder()
	}
	last := s.last.token
	if looks && last != nil {
		by.take(last, at)
	}
	if act() {
		dropped(last)
		by.mutex.Lock()
		s.last.token = by.mark(storing, at)
		by.mutex.Unlock()
	}
}

// AtomicInt32 is an atomic.Int32. Its zero value is 0.
type AtomicInt32 struct {
	value  atomic.Int32
	stored stored
}

// AtomicInt64 is an atomic.Int64. Its zero value is 0.
type AtomicInt64 struct {
	value  atomic.Int64
	stored stored
}

// AtomicUint32 is an atomic.Uint32. Its zero value is 0.
type AtomicUint32 struct {
	value  atomic.Uint32
	stored stored
}

// AtomicUint64 is an atomic.Uint64. Its zero value is 0.
type AtomicUint64 struct {
	value  atomic.Uint64
	stored stored
}

// Load gives the value. Who calls it comes after who stored the value.
//
//go:noinline
func (a *AtomicInt32) Load() (value int32) {
	goroutine, counter := here()
	a.stored.do(goroutine, counter, true, func() bool {
		value = a.value.Load()
		return false
	})
	return value
}

// Store changes the value.
//
//go:noinline
func (a *AtomicInt32) Store(value int32) {
	goroutine, counter := here()
	a.stored.do(goroutine, counter, false, func() bool {
		a.value.Store(value)
		return true
	})
}

// Swap changes the value, and gives the one before.
//
//go:noinline
func (a *AtomicInt32) Swap(value int32) (before int32) {
	goroutine, counter := here()
	a.stored.do(goroutine, counter, true, func() bool {
		before = a.value.Swap(value)
		return true
	})
	return before
}

// CompareAndSwap changes the value if it is this one, and tells whether it was.
//
//go:noinline
func (a *AtomicInt32) CompareAndSwap(before, value int32) (isChanged bool) {
	goroutine, counter := here()
	a.stored.do(goroutine, counter, true, func() bool {
		isChanged = a.value.CompareAndSwap(before, value)
		return isChanged
	})
	return isChanged
}

// Add adds to the value, and gives the new one.
//
//go:noinline
func (a *AtomicInt32) Add(more int32) (value int32) {
	goroutine, counter := here()
	a.stored.do(goroutine, counter, true, func() bool {
		value = a.value.Add(more)
		return true
	})
	return value
}

// Load gives the value. Who calls it comes after who stored the value.
//
//go:noinline
func (a *AtomicInt64) Load() (value int64) {
	goroutine, counter := here()
	a.stored.do(goroutine, counter, true, func() bool {
		value = a.value.Load()
		return false
	})
	return value
}

// Store changes the value.
//
//go:noinline
func (a *AtomicInt64) Store(value int64) {
	goroutine, counter := here()
	a.stored.do(goroutine, counter, false, func() bool {
		a.value.Store(value)
		return true
	})
}

// Swap changes the value, and gives the one before.
//
//go:noinline
func (a *AtomicInt64) Swap(value int64) (before int64) {
	goroutine, counter := here()
	a.stored.do(goroutine, counter, true, func() bool {
		before = a.value.Swap(value)
		return true
	})
	return before
}

// CompareAndSwap changes the value if it is this one, and tells whether it was.
//
//go:noinline
func (a *AtomicInt64) CompareAndSwap(before, value int64) (isChanged bool) {
	goroutine, counter := here()
	a.stored.do(goroutine, counter, true, func() bool {
		isChanged = a.value.CompareAndSwap(before, value)
		return isChanged
	})
	return isChanged
}

// Add adds to the value, and gives the new one.
//
//go:noinline
func (a *AtomicInt64) Add(more int64) (value int64) {
	goroutine, counter := here()
	a.stored.do(goroutine, counter, true, func() bool {
		value = a.value.Add(more)
		return true
	})
	return value
}

// Load gives the value. Who calls it comes after who stored the value.
//
//go:noinline
func (a *AtomicUint32) Load() (value uint32) {
	goroutine, counter := here()
	a.stored.do(goroutine, counter, true, func() bool {
		value = a.value.Load()
		return false
	})
	return value
}

// Store changes the value.
//
//go:noinline
func (a *AtomicUint32) Store(value uint32) {
	goroutine, counter := here()
	a.stored.do(goroutine, counter, false, func() bool {
		a.value.Store(value)
		return true
	})
}

// Swap changes the value, and gives the one before.
//
//go:noinline
func (a *AtomicUint32) Swap(value uint32) (before uint32) {
	goroutine, counter := here()
	a.stored.do(goroutine, counter, true, func() bool {
		before = a.value.Swap(value)
		return true
	})
	return before
}

// CompareAndSwap changes the value if it is this one, and tells whether it was.
//
//go:noinline
func (a *AtomicUint32) CompareAndSwap(before, value uint32) (isChanged bool) {
	goroutine, counter := here()
	a.stored.do(goroutine, counter, true, func() bool {
		isChanged = a.value.CompareAndSwap(before, value)
		return isChanged
	})
	return isChanged
}

// Add adds to the value, and gives the new one.
//
//go:noinline
func (a *AtomicUint32) Add(more uint32) (value uint32) {
	goroutine, counter := here()
	a.stored.do(goroutine, counter, true, func() bool {
		value = a.value.Add(more)
		return true
	})
	return value
}

// Load gives the value. Who calls it comes after who stored the value.
//
//go:noinline
func (a *AtomicUint64) Load() (value uint64) {
	goroutine, counter := here()
	a.stored.do(goroutine, counter, true, func() bool {
		value = a.value.Load()
		return false
	})
	return value
}

// Store changes the value.
//
//go:noinline
func (a *AtomicUint64) Store(value uint64) {
	goroutine, counter := here()
	a.stored.do(goroutine, counter, false, func() bool {
		a.value.Store(value)
		return true
	})
}

// Swap changes the value, and gives the one before.
//
//go:noinline
func (a *AtomicUint64) Swap(value uint64) (before uint64) {
	goroutine, counter := here()
	a.stored.do(goroutine, counter, true, func() bool {
		before = a.value.Swap(value)
		return true
	})
	return before
}

// CompareAndSwap changes the value if it is this one, and tells whether it was.
//
//go:noinline
func (a *AtomicUint64) CompareAndSwap(before, value uint64) (isChanged bool) {
	goroutine, counter := here()
	a.stored.do(goroutine, counter, true, func() bool {
		isChanged = a.value.CompareAndSwap(before, value)
		return isChanged
	})
	return isChanged
}

// Add adds to the value, and gives the new one.
//
//go:noinline
func (a *AtomicUint64) Add(more uint64) (value uint64) {
	goroutine, counter := here()
	a.stored.do(goroutine, counter, true, func() bool {
		value = a.value.Add(more)
		return true
	})
	return value
}

// AtomicBool is an atomic.Bool. Its zero value is false.
type AtomicBool struct {
	value  atomic.Bool
	stored stored
}

// Load gives the value. Who calls it comes after who stored the value.
//
//go:noinline
func (a *AtomicBool) Load() (value bool) {
	goroutine, counter := here()
	a.stored.do(goroutine, counter, true, func() bool {
		value = a.value.Load()
		return false
	})
	return value
}

// Store changes the value.
//
//go:noinline
func (a *AtomicBool) Store(value bool) {
	goroutine, counter := here()
	a.stored.do(goroutine, counter, false, func() bool {
		a.value.Store(value)
		return true
	})
}

// Swap changes the value, and gives the one before.
//
//go:noinline
func (a *AtomicBool) Swap(value bool) (before bool) {
	goroutine, counter := here()
	a.stored.do(goroutine, counter, true, func() bool {
		before = a.value.Swap(value)
		return true
	})
	return before
}

// CompareAndSwap changes the value if it is this one, and tells whether it was.
//
//go:noinline
func (a *AtomicBool) CompareAndSwap(before, value bool) (isChanged bool) {
	goroutine, counter := here()
	a.stored.do(goroutine, counter, true, func() bool {
		isChanged = a.value.CompareAndSwap(before, value)
		return isChanged
	})
	return isChanged
}

// AtomicPointer is an atomic.Pointer. Its zero value is nil.
type AtomicPointer[T any] struct {
	value  atomic.Pointer[T]
	stored stored
}

// Load gives the value. Who calls it comes after who stored the value.
//
//go:noinline
func (a *AtomicPointer[T]) Load() (value *T) {
	goroutine, counter := here()
	a.stored.do(goroutine, counter, true, func() bool {
		value = a.value.Load()
		return false
	})
	return value
}

// Store changes the value.
//
//go:noinline
func (a *AtomicPointer[T]) Store(value *T) {
	goroutine, counter := here()
	a.stored.do(goroutine, counter, false, func() bool {
		a.value.Store(value)
		return true
	})
}

// Swap changes the value, and gives the one before.
//
//go:noinline
func (a *AtomicPointer[T]) Swap(value *T) (before *T) {
	goroutine, counter := here()
	a.stored.do(goroutine, counter, true, func() bool {
		before = a.value.Swap(value)
		return true
	})
	return before
}

// CompareAndSwap changes the value if it is this one, and tells whether it was.
//
//go:noinline
func (a *AtomicPointer[T]) CompareAndSwap(before, value *T) (isChanged bool) {
	goroutine, counter := here()
	a.stored.do(goroutine, counter, true, func() bool {
		isChanged = a.value.CompareAndSwap(before, value)
		return isChanged
	})
	return isChanged
}

// AtomicValue is an atomic.Value. Its zero value has none.
type AtomicValue struct {
	value  atomic.Value
	stored stored
}

// Load gives the value. Who calls it comes after who stored the value.
//
//go:noinline
func (a *AtomicValue) Load() (value any) {
	goroutine, counter := here()
	a.stored.do(goroutine, counter, true, func() bool {
		value = a.value.Load()
		return false
	})
	return value
}

// Store changes the value.
//
//go:noinline
func (a *AtomicValue) Store(value any) {
	goroutine, counter := here()
	a.stored.do(goroutine, counter, false, func() bool {
		a.value.Store(value)
		return true
	})
}

// Swap changes the value, and gives the one before.
//
//go:noinline
func (a *AtomicValue) Swap(value any) (before any) {
	goroutine, counter := here()
	a.stored.do(goroutine, counter, true, func() bool {
		before = a.value.Swap(value)
		return true
	})
	return before
}

// CompareAndSwap changes the value if it is this one, and tells whether it was.
//
//go:noinline
func (a *AtomicValue) CompareAndSwap(before, value any) (isChanged bool) {
	goroutine, counter := here()
	a.stored.do(goroutine, counter, true, func() bool {
		isChanged = a.value.CompareAndSwap(before, value)
		return isChanged
	})
	return isChanged
}
