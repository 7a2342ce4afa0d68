package itctrace

import (
	"runtime"
	"sort"
	"strconv"
	"sync"
	"sync/atomic"
)

const (
	// mostPlaces is how many places of a task wait at most for somebody who comes after them. The first one becomes a message then.
	mostPlaces = 256
	// mostTouches is how many touches an event stands for at most.
	mostTouches = 4096
	// fewTouches are compared one by one.
	fewTouches = 8
	// mostKnown is how many places of others a task knows before it is looked which of these are of no more use.
	mostKnown = 64
)

// task is the events of one goroutine, in their order. What it has done is reported as late as can be: nothing is reported of a place that
// nobody can come after any more, and what was touched on both sides of it is one event.
type task struct {
	name string
	// mutex is held by whoever looks at what follows, but for known, which is the goroutine's own.
	mutex sync.Mutex
	// events is how many were reported.
	events int
	// first and last are the places that are not reported yet, from the first one to the last one.
	first, last *place
	places      int
	// spare is one that is of no more use.
	spare *place
	// sincePlace has what was touched since the last place.
	sincePlace *touches
	// lastSent is the last event, if that has sent a message.
	lastSent *message
	held     *holding
	waits    map[wait]*wait
	end      *token
	joinedBy *task
	isEnded  atomic.Bool
	// isLeft tells whether nobody can wait for it any more, and isKept whether it has ended and somebody may.
	isLeft, isKept bool
	// offspring counts the tasks that it has started itself, nursery starts its next ones, and starter has started it.
	offspring offspring
	nursery   *nursery
	starter   starter
	// children are processes that it has started and that have ended since.
	children []*task
	hasChild atomic.Bool
	// known tells of other tasks how many of their events this one comes after.
	known      map[source]int
	knownSwept int
}

// source is a task, and the lock by which something of it is known. It is nil if the order is meant.
type source struct {
	task *task
	lock *lock
}

// what an order is called: its message, its sending and its receiving. A lock that is handed over is named. Luck says who has it next, if
// it is no guard.
type what struct {
	hint, giving, taking string
	lock                 *lock
	isGuard              bool
}

// place is a point in a task that somebody may still come after, and what was touched between the place before it and this one.
type place struct {
	before         *touches
	tokens         []*token
	previous, next *place
	// age is how often it was seen at a look at all tasks.
	age int
}

// token stands for a place. Whoever takes it comes after all that its task did before.
type token struct {
	task *task
	what *what
	site *site
	time float64
	// place is nil if it was reported, or if nobody can take the token any more.
	place *place
	index int
	// since, count and events tell what the task had done when it was dropped. If it has done nothing since, its time stays.
	since  *touches
	size   int
	events int
	// message is what it was reported by, as the event of this number.
	message *message
	count   int
}

type message struct {
	name string
	lock *lock
	// holders is how many may still have it received: tokens, its task as long as it may have one more, and who is about to receive it.
	holders atomic.Int32
}

func (m *message) hold() {
	if m != nil {
		m.holders.Add(1)
	}
}

// leave has one hold it no more. Nobody can receive it behind the last one.
func (m *message) leave() {
	if m != nil && m.holders.Add(-1) == 0 {
		tracing.forgetNow(m)
	}
}

// becomes has the token be received by this message, as the event of this number. None is nil.
func (t *token) becomes(made *message, count int) {
	made.hold()
	t.message.leave()
	t.message, t.count = made, count
}

// touches is what a task touches between two of its other events. One event stands for all of it, and each touch is told once.
type touches struct {
	task       *task
	begun      float64
	event      atomic.Int64 // With the part of the trace above the number.
	isReported bool
	isTimeTold bool
	last       touch
	few        []touch
	seen       map[touch]bool
	fresh      []touch
	isListed   bool
}

// touch is what tells one touch of a task from the others.
type touch struct {
	thing string
	site  *site
	// held has the names of the locks that the task holds, each behind a line feed.
	held             string
	writes, isAcross bool
	// wait is of a lock that the task has waited for while it held others. Each is there once in its task.
	wait *wait
}

// wait is a lock that is waited for, and places and shared tell more of those that are held.
type wait struct {
	wants, places, shared string
}

func newTask(name string) *task {
	return &task{name: name, held: &holding{}}
}

// holding is the locks that a task holds, in the order of their acquiring. It is never changed but for the one that was acquired last.
type holding struct {
	below *holding
	lock  *lock
	// site is where it was acquired, and isShared tells whether others may read under it meanwhile.
	site     *site
	isShared bool
	text     string
	// places has the sites of all of them, and shared the numbers of those that are shared, both as a row tells them.
	places, shared string
	count          int
	// outlived has the locks that the task has acquired before this one, and released since. isCrossed tells whether there are any
	// of this one or of those below.
	outlived  []*lock
	isCrossed bool
	next      *holding
}

// with is the same with one lock more.
func (h *holding) with(acquired *lock, at *site, isShared bool) *holding {
	if h.next == nil || h.next.lock != acquired || h.next.site != at || h.next.isShared != isShared {
		h.next = h.above(acquired, at, isShared)
	}
	return h.next
}

func (h *holding) above(acquired *lock, at *site, isShared bool) *holding {
	return &holding{
		below: h, lock: acquired, site: at, isShared: isShared, text: h.text + "\n" + acquired.name,
		places: h.places + at.three(), shared: h.sharedWith(isShared), count: h.count + 1, isCrossed: h.isCrossed,
	}
}

// outliving is the same with one more lock that its last one has outlived.
func (h *holding) outliving(released ...*lock) *holding {
	h.outlived = append(h.outlived, released...)
	h.isCrossed = h.isCrossed || len(h.outlived) > 0
	return h
}

// notOutliving is those that have not outlived this lock. Two locks may be a lock of readers: one of them has the other acquired, is
// released, and is acquired once more to release that. Readers do not wait for each other by that.
func (h *holding) notOutliving(wanted *lock) *holding {
	if !h.isCrossed {
		return h
	}
	below := h.below.notOutliving(wanted)
	for _, one := range h.outlived {
		if one == wanted {
			return below
		}
	}
	return below.above(h.lock, h.site, h.isShared)
}

func (h *holding) sharedWith(isShared bool) string {
	if !isShared {
		return h.shared
	}
	return h.shared + "," + strconv.Itoa(h.count)
}

// without is the same with one lock less. It tells whether the task still holds one that it acquired later. A lock that is lent for the
// time of a wait is outlived by none.
func (h *holding) without(released *lock, isLent bool) (left *holding, isLaterHeld bool) {
	if h.lock == released && released != nil {
		return h.below, false
	}
	if h.below == nil {
		return h, false
	}
	below, _ := h.below.without(released, isLent)
	if below == h.below {
		return h, false
	}
	left = below.above(h.lock, h.site, h.isShared).outliving(h.outlived...)
	if !isLent {
		left.outliving(released)
	}
	return left, true
}

// letsGo has the task no longer hold a lock. It tells whether it still holds one that it acquired later. The mutex of the task is held.
func (of *task) letsGo(released *lock, isLent bool) bool {
	if of.held.lock == released {
		of.held = of.held.below
		return false
	}
	return of.letsGoBelow(released, isLent)
}

//go:noinline
func (of *task) letsGoBelow(released *lock, isLent bool) (isLaterHeld bool) {
	of.held, isLaterHeld = of.held.without(released, isLent)
	return isLaterHeld
}

// add takes over a touch. It tells whether there was none that is the same.
func (s *touches) add(one touch) bool {
	s.last = one
	if s.seen == nil {
		for _, known := range s.few {
			if known == one {
				return false
			}
		}
		s.few = append(s.few, one)
		if len(s.few) > fewTouches {
			s.seen = make(map[touch]bool, 2*fewTouches)
			for _, known := range s.few {
				s.seen[known] = true
			}
			s.few = nil
		}
	} else {
		if s.seen[one] {
			return false
		}
		s.seen[one] = true
	}
	s.fresh = append(s.fresh, one)
	return true
}

func (s *touches) count() int {
	if s == nil {
		return 0
	}
	return len(s.few) + len(s.seen)
}

func (s *touches) each(do func(touch)) {
	for _, one := range s.few {
		do(one)
	}
	for one := range s.seen {
		do(one)
	}
}

// joined is two that nothing lies between any more. The first one may have been reported.
func joined(first, second *touches) *touches {
	if first == nil {
		return second
	}
	if second == nil {
		return first
	}
	if !first.isReported && first.count() < second.count() {
		second.begun = first.begun
		first, second = second, first
	}
	second.each(func(one touch) {
		if first.add(one) {
			tracing.list(first)
		}
	})
	return first
}

// touch notes that the task reads or writes a thing.
func (of *task) touch(one touch) {
	of.mutex.Lock()
	defer of.mutex.Unlock()
	one.held = of.held.text
	if now := of.sincePlace; now == nil || now.last != one { // Asked here first, it costs no copy.
		of.add(one)
	}
}

// acquires notes that the task has waited for a lock, if it holds others. The mutex of the task is held.
func (of *task) acquires(wanted *lock, at *site, isShared bool) {
	if held := of.held.notOutliving(wanted); held.count > 0 {
		wanted.isNested.Store(true)
		for one := held; one.count > 0; one = one.below {
			one.lock.isNested.Store(true)
		}
		one := of.waiting(wait{wanted.name, held.places, held.sharedWith(isShared)})
		of.add(touch{site: at, held: held.text, wait: one})
	}
}

// waiting is the same wait, as it is known by where it stands: the touches of a task are compared at each turn.
func (of *task) waiting(one wait) *wait {
	if known := of.waits[one]; known != nil {
		return known
	}
	if of.waits == nil || len(of.waits) >= mostTouches {
		of.waits = map[wait]*wait{}
	}
	of.waits[one] = &one
	return &one
}

// add notes what the task has done, with its mutex held.
func (of *task) add(one touch) {
	now := of.sincePlace
	if now != nil && now.last == one {
		return
	}
	if now != nil && now.count() >= mostTouches {
		of.leave()
		of.sincePlace, now = nil, nil
	}
	if now == nil {
		now = &touches{task: of, begun: tracing.now()}
		of.sincePlace = now
	}
	if now.add(one) {
		tracing.list(now)
	}
	of.sentLast(nil)
	of.tell()
}

// sentLast has this be the message of the last event.
func (of *task) sentLast(made *message) {
	if of.lastSent != made {
		made.hold()
		of.lastSent.leave()
		of.lastSent = made
	}
}

// tell reports what was touched last, if no place lies before it.
func (of *task) tell() {
	if of.first == nil && of.sincePlace != nil {
		of.sincePlace.tell()
	}
}

func (s *touches) tell() {
	if !s.isReported {
		s.isReported = true
		s.task.events++
		s.isListed = true // It is listed once the collector has answered.
		tracing.put(&report{kind: "local", task: s.task.name, time: s.begun, touches: s})
	}
}

// mark makes a token for the place where the task is.
func (of *task) mark(called *what, at *site) *token {
	made := &token{task: of, what: called, site: at}
	of.markBy(made)
	return made
}

// markBy is the same by a token that nobody has any more.
func (of *task) markBy(made *token) {
	if of.first == nil && of.sincePlace == nil && of.lastSent != nil && of.lastSent.lock == made.what.lock {
		made.becomes(of.lastSent, of.events)
		return
	}
	if made.message != nil {
		made.becomes(nil, 0)
	}
	if made.time == 0 || made.since != of.sincePlace || made.size != of.sincePlace.count() || made.events != of.events {
		made.time = tracing.now()
	}
	if of.last == nil || of.sincePlace != nil {
		of.append(of.sincePlace)
		of.sincePlace = nil
	}
	made.place, made.index = of.last, len(of.last.tokens)
	of.last.tokens = append(of.last.tokens, made)
	if of.places > mostPlaces {
		of.reportUpTo(of.first)
	}
}

func (of *task) append(before *touches) {
	made := of.spare
	if of.spare = nil; made == nil {
		made = &place{}
	}
	made.before, made.previous, made.next, made.age = before, of.last, nil, 0
	if of.last == nil {
		of.first = made
	} else {
		of.last.next = made
	}
	of.last = made
	of.places++
}

func (of *task) remove(gone *place) {
	if gone.previous == nil {
		of.first = gone.next
	} else {
		gone.previous.next = gone.next
	}
	if gone.next == nil {
		of.last = gone.previous
	} else {
		gone.next.previous = gone.previous
	}
	of.places--
}

// drop has a token be one that nobody can take any more.
func (of *task) drop(dropped *token) {
	from := dropped.place
	if from == nil {
		dropped.becomes(nil, 0)
		return
	}
	dropped.place = nil
	dropped.since, dropped.size, dropped.events = from.before, from.before.count(), of.events
	last := from.tokens[len(from.tokens)-1]
	from.tokens[dropped.index], last.index = last, dropped.index
	from.tokens = from.tokens[:len(from.tokens)-1]
	if len(from.tokens) > 0 {
		return
	}
	of.remove(from)
	if from.next != nil {
		from.next.before = joined(from.before, from.next.before)
	} else {
		of.sincePlace = joined(from.before, of.sincePlace)
	}
	from.before, from.previous, from.next, of.spare = nil, nil, nil, from
	of.tell()
}

// reportUpTo has the places up to this one become messages.
func (of *task) reportUpTo(until *place) {
	for isLast := false; !isLast; {
		next := of.first
		isLast = next == until
		of.remove(next)
		if next.before != nil {
			next.before.tell()
		}
		of.send(next.tokens)
		next.tokens = nil
	}
	of.tell()
}

// send reports a message for all tokens of the same lock, or of none, so that the order without locks is told in full.
func (of *task) send(tokens []*token) {
	sort.SliceStable(tokens, func(one, other int) bool { return tokens[one].time < tokens[other].time })
	sent := map[*lock]*message{}
	counts := map[*lock]int{}
	for _, one := range tokens {
		lock := one.what.lock
		if sent[lock] == nil {
			sent[lock] = of.sendNow(one)
			counts[lock] = of.events
		}
		one.becomes(sent[lock], counts[lock])
		one.place = nil
	}
}

func (of *task) sendNow(given *token) *message {
	made := tracing.newMessage(given.what)
	of.events++
	of.sentLast(made)
	tracing.put(&report{
		kind: "send", task: of.name, name: made.name, site: given.site, label: given.what.giving, lock: given.what.lock,
		isGuard: given.what.isGuard, time: given.time,
	})
	return made
}

// leave reports all that the task did by now.
func (of *task) leave() {
	if of.first != nil {
		of.reportUpTo(of.last)
	}
}

// settle reports all that the task did by now, where nobody comes after it any more.
func (of *task) settle() {
	var all *touches
	for one := of.first; one != nil; one = one.next {
		all = joined(all, one.before)
		for _, given := range one.tokens {
			given.place = nil
		}
	}
	of.sincePlace = joined(all, of.sincePlace)
	of.first, of.last, of.places = nil, nil, 0
	of.tell()
}

// report reports an event behind all that the task did by now.
func (of *task) report(told *report) {
	of.leave()
	of.sincePlace = nil
	of.sentLast(nil)
	of.events++
	told.task = of.name
	tracing.put(told)
}

// take has the task come after the token's place.
func (of *task) take(taken *token, at *site) {
	from := taken.task
	if from == of {
		return
	}
	from.mutex.Lock()
	if taken.place != nil {
		from.reportUpTo(taken.place)
	}
	message, count := taken.message, taken.count
	message.hold() // Else it may be forgotten before its receipt is reported.
	from.mutex.Unlock()
	defer message.leave()
	lock := taken.what.lock
	if message == nil || of.known[source{from, nil}] >= count || lock != nil && of.known[source{from, lock}] >= count {
		return
	}
	of.mutex.Lock()
	of.report(&report{
		kind: "recv", name: message.name, site: at, label: taken.what.taking, lock: lock, isGuard: taken.what.isGuard, mayBeReceived: true,
	})
	of.mutex.Unlock()
	of.know(source{from, lock}, count)
}

func (of *task) know(from source, count int) {
	if of.known == nil {
		of.known = map[source]int{}
	}
	of.known[from] = count
	if len(of.known) <= 2*of.knownSwept+mostKnown {
		return
	}
	for one := range of.known {
		if one.task.isEnded.Load() {
			delete(of.known, one)
		}
	}
	of.knownSwept = len(of.known)
}

// holder has a token for something that may be no more one day. Nobody can take the token then.
type holder struct {
	token *token
}

func newHolder() *holder {
	made := &holder{}
	runtime.SetFinalizer(made, func(gone *holder) {
		if gone.token != nil {
			tracing.dropSoon(gone.token)
		}
	})
	return made
}

// gathered has the last places of tasks, all of which somebody may come after.
type gathered struct {
	all *allPlaces
}

type allPlaces struct {
	tokens map[*task]*token
	swept  int
	// keeper is a task of the tracer. It comes after the places of tasks that have ended, in place of each.
	keeper *task
	kept   *token
}

// of is the token of a task, if there is one.
func (g *gathered) of(one *task) *token {
	if g.all == nil {
		return nil
	}
	return g.all.tokens[one]
}

func (g *gathered) put(made *token) {
	if g.all == nil {
		g.all = &allPlaces{tokens: map[*task]*token{}}
		runtime.SetFinalizer(g.all, func(gone *allPlaces) {
			for _, one := range gone.tokens {
				tracing.dropSoon(one)
			}
		})
	}
	dropped(g.all.tokens[made.task]) // A later place stands for it.
	g.all.tokens[made.task] = made
	if len(g.all.tokens) > 2*g.all.swept+mostKnown {
		g.all.sweep(made.what)
	}
}

// sweep keeps the places of ended tasks by one token.
func (a *allPlaces) sweep(called *what) {
	for of, one := range a.tokens {
		if !of.isEnded.Load() {
			continue
		}
		if a.keeper == nil {
			a.keeper = tracing.stranger("keeper")
		}
		a.keeper.take(one, nowhere)
		delete(a.tokens, of)
	}
	if a.keeper != nil {
		a.keeper.mutex.Lock()
		if a.kept != nil {
			a.keeper.drop(a.kept)
		}
		a.kept = a.keeper.mark(called, nowhere)
		a.keeper.mutex.Unlock()
	}
	a.swept = len(a.tokens)
}

// takeAll has the task come after all places.
func (g *gathered) takeAll(by *task, at *site) {
	if g.all == nil {
		return
	}
	if g.all.kept != nil {
		by.take(g.all.kept, at)
	}
	for _, one := range g.all.tokens {
		by.take(one, at)
	}
}

// clear forgets all places.
func (g *gathered) clear() {
	if g.all != nil {
		g.all.clear()
	}
}

func (a *allPlaces) clear() {
	for of, one := range a.tokens {
		delete(a.tokens, of)
		dropped(one)
	}
	dropped(a.kept)
	a.kept, a.swept = nil, 0
}
