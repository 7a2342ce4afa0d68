package itctrace

import (
	"fmt"
	"path/filepath"
	"sync"
	"sync/atomic"
)

// lock is what tells a lock from others. It is named by the line that acquires it first.
type lock struct {
	name    string
	release what
	guard   what
	signal  what
	// isNested tells whether it was acquired with another one held, or another one while it was held.
	isNested atomic.Bool
}

func newLock(at *site) *lock {
	called := "lock"
	if at.file != nil {
		called = fmt.Sprintf("lock (%s:%d)", filepath.Base(*at.file), at.line)
	}
	made := &lock{name: fmt.Sprintf("#%s%d %s", tracing.prefix, tracing.locks.Add(1), called)}
	made.signal = what{hint: fmt.Sprintf("lock%d", at.line), giving: "release " + called, taking: "acquire " + called}
	made.release = made.signal
	made.release.lock = made
	made.guard = made.release
	made.guard.isGuard = true
	return made
}

// hand is what a lock hands over from one who held it alone to whoever acquires it next. It is looked at by whoever holds the lock alone.
type hand struct {
	lock   *lock
	holder *task
	// last has the token of the last release, which nobody can take any more once isTaken is true.
	last    *holder
	isTaken bool
	// isGuard tells whether others wait for more than the lock, as for a condition. Then its hand-over is meant, and no luck.
	isGuard atomic.Bool
	// isSignal tells whether the lock keeps nobody out, as another goroutine releases it.
	isSignal atomic.Bool
}

// gives is what a release of the lock is.
func (h *hand) gives() *what {
	switch {
	case h.isSignal.Load():
		return &h.lock.signal
	case h.isGuard.Load():
		return &h.lock.guard
	default:
		return &h.lock.release
	}
}

// becomeSignal has the lock be one that keeps nobody out. What was told of it before is told not to count.
func (h *hand) becomeSignal() {
	if !h.isSignal.Swap(true) && h.lock.isNested.Load() {
		tracing.tellSignal(h.lock)
	}
}

func (h *hand) known(at *site) *lock {
	if h.lock == nil {
		h.lock = newLock(at)
	}
	return h.lock
}

// acquire has the task come after who released the lock, and hold it.
func (h *hand) acquire(by *task, at *site, hasWaited bool) {
	acquired, given := h.known(at), h.given()
	h.holder, h.isTaken = by, true
	if given != nil && given.task != by {
		by.takeAlone(given, at)
		h.last.token, given = nil, nil
	}
	by.mutex.Lock()
	if given != nil { // Nobody else can come after it any more.
		by.drop(given)
	}
	if hasWaited && by.held.count > 0 && !h.isSignal.Load() {
		by.acquires(acquired, at, false)
	}
	by.held = by.held.with(acquired, at, false)
	by.mutex.Unlock()
}

// release has the task no longer hold the lock, which is handed over. Who lends it for the time of a wait acquires it again.
func (h *hand) release(by *task, at *site, lends bool) {
	released := h.known(at)
	if h.holder != nil && h.holder != by {
		h.becomeSignal() // A lock that another goroutine releases tells it something.
		h.holder.letGo(released)
	}
	h.holder = nil
	by.mutex.Lock()
	if by.letsGo(released, lends) {
		h.isGuard.Store(true) // One that was acquired later stays, as in a lock made of two.
	}
	if h.last == nil {
		h.last = newHolder()
	}
	if h.last.token == nil || h.last.token.task != by {
		h.last.token = &token{task: by}
	}
	h.last.token.what, h.last.token.site = h.gives(), at
	by.markBy(h.last.token)
	by.mutex.Unlock()
	h.isTaken = false
}

// given is the token of the last release, if somebody may still take it.
func (h *hand) given() *token {
	if h.last == nil || h.isTaken {
		return nil
	}
	return h.last.token
}

func (of *task) letGo(released *lock) {
	of.mutex.Lock()
	defer of.mutex.Unlock()
	of.letsGo(released, false)
}

// Mutex is a lock whose release comes before the next time that it is acquired. Its zero value is ready.
type Mutex struct {
	mutex sync.Mutex
	hand  hand
}

// Lock acquires it.
//
//go:noinline
func (m *Mutex) Lock() {
	m.mutex.Lock()
	if goroutine, counter := here(); isOn() {
		m.hand.acquire(own(goroutine), siteAt(counter), true)
	}
}

// TryLock tells whether it could acquire it at once.
//
//go:noinline
func (m *Mutex) TryLock() bool {
	isLocked := m.mutex.TryLock()
	if goroutine, counter := here(); isLocked && isOn() {
		m.hand.acquire(own(goroutine), siteAt(counter), false)
	}
	return isLocked
}

// Unlock releases it.
//
//go:noinline
func (m *Mutex) Unlock() {
	if goroutine, counter := here(); isOn() {
		m.hand.release(own(goroutine), siteAt(counter), false)
	}
	m.mutex.Unlock()
}

func (m *Mutex) lend(by *task, at *site) {
	m.hand.release(by, at, true)
	m.mutex.Unlock()
}

func (m *Mutex) takeBack(by *task, at *site) {
	m.mutex.Lock()
	m.hand.acquire(by, at, true)
}

// becomeGuard has the hand-over of the lock be meant, as others wait for more than the lock.
func (m *Mutex) becomeGuard() { m.hand.isGuard.Store(true) }

// RWMutex is a lock that several goroutines may read under at once. They come after the last one that wrote, and before the next one.
// Its zero value is ready.
type RWMutex struct {
	lock    sync.RWMutex
	mutex   sync.Mutex
	hand    hand
	readers gathered
	// lastReader is the token of the last one that read.
	lastReader *token
}

func (m *RWMutex) acquired(by *task, at *site, hasWaited bool) {
	m.mutex.Lock()
	defer m.mutex.Unlock()
	m.readers.takeAll(by, at)
	m.readers.clear()
	m.lastReader = nil
	m.hand.acquire(by, at, hasWaited)
}

func (m *RWMutex) releasing(by *task, at *site, lends bool) {
	m.mutex.Lock()
	defer m.mutex.Unlock()
	m.hand.release(by, at, lends)
}

func (m *RWMutex) lend(by *task, at *site) {
	m.releasing(by, at, true)
	m.lock.Unlock()
}

func (m *RWMutex) takeBack(by *task, at *site) {
	m.lock.Lock()
	m.acquired(by, at, true)
}

func (m *RWMutex) reads(by *task, at *site, hasWaited bool) {
	m.mutex.Lock()
	acquired, own := m.hand.known(at), m.readerOf(by)
	if given := m.hand.given(); given != nil {
		by.take(given, at)
	}
	by.mutex.Lock()
	if own != nil { // What this one has read is told by its next release, or by this one.
		by.drop(own)
	}
	if hasWaited && by.held.count > 0 && !m.hand.isSignal.Load() {
		by.acquires(acquired, at, true)
	}
	by.held = by.held.with(acquired, at, true)
	by.mutex.Unlock()
	m.mutex.Unlock()
}

func (m *RWMutex) readerOf(by *task) *token {
	if m.lastReader == nil || m.lastReader.task != by {
		m.lastReader = m.readers.of(by)
	}
	return m.lastReader
}

func (m *RWMutex) hasRead(by *task, at *site) {
	m.mutex.Lock()
	defer m.mutex.Unlock()
	released, own := m.hand.known(at), m.readerOf(by)
	by.mutex.Lock()
	if by.letsGo(released, false) {
		m.hand.isGuard.Store(true)
	}
	made := own
	if made == nil {
		made = &token{task: by}
	} else {
		by.drop(made)
	}
	made.site, made.what = at, m.hand.gives()
	by.markBy(made)
	by.mutex.Unlock()
	if own == nil {
		m.readers.put(made)
		m.lastReader = nil
	}
}

// Lock acquires it for writing.
//
//go:noinline
func (m *RWMutex) Lock() {
	m.lock.Lock()
	if goroutine, counter := here(); isOn() {
		m.acquired(own(goroutine), siteAt(counter), true)
	}
}

// TryLock tells whether it could acquire it at once for writing.
//
//go:noinline
func (m *RWMutex) TryLock() bool {
	isLocked := m.lock.TryLock()
	if goroutine, counter := here(); isLocked && isOn() {
		m.acquired(own(goroutine), siteAt(counter), false)
	}
	return isLocked
}

// Unlock releases it after writing.
//
//go:noinline
func (m *RWMutex) Unlock() {
	if goroutine, counter := here(); isOn() {
		m.releasing(own(goroutine), siteAt(counter), false)
	}
	m.lock.Unlock()
}

// RLock acquires it for reading.
//
//go:noinline
func (m *RWMutex) RLock() {
	m.lock.RLock()
	if goroutine, counter := here(); isOn() {
		m.reads(own(goroutine), siteAt(counter), true)
	}
}

// TryRLock tells whether it could acquire it at once for reading.
//
//go:noinline
func (m *RWMutex) TryRLock() bool {
	isLocked := m.lock.TryRLock()
	if goroutine, counter := here(); isLocked && isOn() {
		m.reads(own(goroutine), siteAt(counter), false)
	}
	return isLocked
}

// RUnlock releases it after reading.
//
//go:noinline
func (m *RWMutex) RUnlock() {
	if goroutine, counter := here(); isOn() {
		m.hasRead(own(goroutine), siteAt(counter))
	}
	m.lock.RUnlock()
}

// RLocker gives a lock that is acquired for reading.
func (m *RWMutex) RLocker() sync.Locker { return (*reading)(m) }

type reading RWMutex

//go:noinline
func (r *reading) Lock() {
	m := (*RWMutex)(r)
	m.lock.RLock()
	if goroutine, counter := here(); isOn() {
		m.reads(own(goroutine), siteAt(counter), true)
	}
}

//go:noinline
func (r *reading) Unlock() {
	m := (*RWMutex)(r)
	if goroutine, counter := here(); isOn() {
		m.hasRead(own(goroutine), siteAt(counter))
	}
	m.lock.RUnlock()
}

// Cond is a condition. Whoever waits comes after the one who has signalled, also if that one does not hold the lock.
type Cond struct {
	// L is held while the condition is looked at.
	L       sync.Locker
	mutex   sync.Mutex
	waiting []chan *token
}

var signalling = &what{hint: "signal", giving: "signal", taking: "wake up"}

// NewCond makes a condition of the lock.
func NewCond(lock sync.Locker) *Cond {
	if meant, canBeMeant := lock.(interface{ becomeGuard() }); canBeMeant {
		meant.becomeGuard()
	}
	return &Cond{L: lock}
}

func (m *RWMutex) becomeGuard() { m.hand.isGuard.Store(true) }

func (r *reading) becomeGuard() { (*RWMutex)(r).becomeGuard() }

// Wait releases the lock, waits until somebody signals, and acquires the lock again.
//
//go:noinline
func (c *Cond) Wait() {
	goroutine, counter := here()
	woken := make(chan *token, 1)
	c.mutex.Lock()
	c.waiting = append(c.waiting, woken)
	c.mutex.Unlock()
	given := c.waitFor(woken, goroutine, counter)
	if given != nil && isOn() {
		own(goroutine).take(given, siteAt(counter))
	}
}

func (c *Cond) waitFor(woken chan *token, goroutine uint64, counter uintptr) *token {
	lent, isOurs := c.L.(lending)
	if !isOurs || !isOn() {
		c.L.Unlock()
		defer c.L.Lock()
		return <-woken
	}
	by, at := own(goroutine), siteAt(counter)
	lent.lend(by, at)
	defer lent.takeBack(by, at)
	return <-woken
}

// lending is a lock that is released for the time of a wait, and acquired again.
type lending interface {
	lend(by *task, at *site)
	takeBack(by *task, at *site)
}

// Signal wakes the one who has waited longest, if somebody waits.
//
//go:noinline
func (c *Cond) Signal() {
	goroutine, counter := here()
	c.wake(1, goroutine, counter)
}

// Broadcast wakes all who wait.
//
//go:noinline
func (c *Cond) Broadcast() {
	goroutine, counter := here()
	c.wake(-1, goroutine, counter)
}

func (c *Cond) wake(most int, goroutine uint64, counter uintptr) {
	c.mutex.Lock()
	defer c.mutex.Unlock()
	if most < 0 || most > len(c.waiting) {
		most = len(c.waiting)
	}
	if most == 0 {
		return
	}
	var given *token
	if isOn() {
		given = markOf(own(goroutine), signalling, siteAt(counter))
	}
	for _, woken := range c.waiting[:most] {
		woken <- given
	}
	c.waiting = append([]chan *token(nil), c.waiting[most:]...)
}

// markOf makes a token for the place where the task is.
func markOf(of *task, called *what, at *site) *token {
	of.mutex.Lock()
	defer of.mutex.Unlock()
	return of.mark(called, at)
}

// marked is the same for the goroutine that here has told of. It is nil without a trace.
func marked(goroutine uint64, called *what, at *site) *token {
	if !isOn() {
		return nil
	}
	return markOf(own(goroutine), called, at)
}

// take has the goroutine come after the token's place, if there is a trace.
func take(goroutine uint64, taken *token, at *site) {
	if taken != nil && isOn() {
		own(goroutine).take(taken, at)
	}
}

// takeAlone is the same of a token that nobody else can take.
func takeAlone(goroutine uint64, taken *token, at *site) {
	take(goroutine, taken, at)
	dropped(taken)
}

// takeAlone has the task come after the token's place, as the only one.
func (of *task) takeAlone(taken *token, at *site) {
	of.take(taken, at)
	dropped(taken)
}

// dropped has a token be one that nobody can take any more.
func dropped(gone *token) {
	if gone != nil && isOn() {
		gone.task.mutex.Lock()
		gone.task.drop(gone)
		gone.task.mutex.Unlock()
	}
}

// WaitGroup waits for goroutines. Whoever has waited comes after all that are done. Its zero value is ready.
type WaitGroup struct {
	group    sync.WaitGroup
	mutex    sync.Mutex
	count    int
	done     gathered
	isWaited bool
}

var doing = &what{hint: "done", giving: "done", taking: "all are done"}

// Add adds to the count of those that are waited for.
//
//go:noinline
func (w *WaitGroup) Add(count int) {
	goroutine, counter := here()
	w.add(count, goroutine, counter)
}

// Done counts one that is done.
//
//go:noinline
func (w *WaitGroup) Done() {
	goroutine, counter := here()
	w.add(-1, goroutine, counter)
}

func (w *WaitGroup) add(count int, goroutine uint64, counter uintptr) {
	w.mutex.Lock()
	if w.count == 0 && w.isWaited {
		w.done.clear() // All who waited for the ones before have returned.
		w.isWaited = false
	}
	w.count += count
	if count < 0 && isOn() {
		w.done.put(markOf(own(goroutine), doing, siteAt(counter)))
	}
	w.mutex.Unlock()
	w.group.Add(count)
}

// Wait waits until all are done.
//
//go:noinline
func (w *WaitGroup) Wait() {
	goroutine, counter := here()
	w.group.Wait()
	w.mutex.Lock()
	defer w.mutex.Unlock()
	w.isWaited = true
	if isOn() {
		w.done.takeAll(own(goroutine), siteAt(counter))
	}
}
