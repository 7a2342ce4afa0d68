package itctrace

import (
	"strconv"
	"sync/atomic"
)

// A task that starts a task halves what is left of its identity in the clock. So the last ones of many have long
// identities, and long stamps. From some number of children on a task has nurseries: tasks of which each starts some
// for it, and does nothing else. docs/long-runs.md has the proof that this orders nothing else.

const (
	// fewChildren is how many tasks that nobody has joined yet a task has started itself, and manyPlaces how many a
	// nursery starts.
	fewChildren, manyPlaces = 32, 32
	nurseryHint             = "itc_nursery"
	// placeHint is what a message to a nursery is called.
	placeHint = "place"
)

// width says from how many children on a task has nurseries, and how many children each of these starts.
type width struct {
	children int64
	places   int
}

// offspring is what a task or a nursery knows of the tasks that it has started itself: how many nobody has joined yet.
type offspring struct {
	unjoined atomic.Int64
}

// nursery starts tasks for another one. The mutex of that one is held by whoever looks at what is no atomic.
type nursery struct {
	offspring
	line *task
	// of is the offspring of its task, to which it belongs itself.
	of      *offspring
	started int
	// told is how many events its task had when it was told last. It is 0 before.
	told int
	// awaited is how many of its tasks somebody may still join.
	awaited atomic.Int64
	isOver  atomic.Bool
}

// starter is who has started a task: its own starter, or a nursery of that one.
type starter struct {
	of *offspring
	// nursery is nil if the task was started by its own starter.
	nursery *nursery
}

// startChild reports that the parent starts the child, at this place. The parent's mutex is held.
func (t *tracer) startChild(parent, child *task, at *site) {
	started := &report{kind: "spawn", name: child.name, site: at, label: "start " + child.name}
	if parent.offspring.unjoined.Load() < t.width.children {
		parent.offspring.unjoined.Add(1)
		child.starter = starter{of: &parent.offspring}
		parent.report(started)
		return
	}
	from := t.nurseryOf(parent)
	t.tellNursery(parent, from, started)
	from.started++
	from.unjoined.Add(1)
	from.awaited.Add(1)
	child.starter = starter{&from.offspring, from}
	from.line.report(started)
	if from.started == t.width.places {
		t.endNursery(parent)
	}
}

// nurseryOf is the nursery of the task that has a place left.
func (t *tracer) nurseryOf(parent *task) *nursery {
	if parent.nursery == nil {
		made := &nursery{line: newTask(t.freshName(nurseryHint)), of: &parent.offspring}
		parent.offspring.unjoined.Add(1)
		parent.nursery = made
		parent.report(&report{kind: "spawn", name: made.line.name, site: nowhere, label: "start " + made.line.name})
	}
	return parent.nursery
}

// tellNursery has the nursery come after all that the parent has done before it starts a task. It knows that if the
// parent has done nothing since it was told last.
func (t *tracer) tellNursery(parent *task, told *nursery, start *report) {
	parent.leave()
	if told.told == parent.events {
		return
	}
	number := strconv.FormatInt(t.messages.Add(1), 10)
	message := t.prefix + placeHint[:min(len(placeHint), mostName-len(t.prefix)-len(number)-1)] + "_" + number
	parent.report(&report{kind: "send", name: message, site: start.site, label: start.label})
	told.line.report(&report{kind: "recv", name: message, site: nowhere, label: start.label})
	told.told = parent.events
	if t.hasParts {
		t.mutex.Lock()
		t.tellGone("forget ", message)
		t.mutex.Unlock()
	}
}

// endNursery ends the nursery of the task that has a place left, if there is one. The mutex of the task is held.
func (t *tracer) endNursery(parent *task) {
	if over := parent.nursery; over != nil {
		parent.nursery = nil
		over.line.report(&report{kind: "end", site: nowhere, label: "end"})
		over.isOver.Store(true)
	}
}

// leaveNursery ends the nursery of a task that ends itself, so that nobody joins it.
func (t *tracer) leaveNursery(parent *task) {
	if left := parent.nursery; left != nil {
		t.endNursery(parent)
		t.tellNurseryLeft(left)
	}
}

func (t *tracer) tellNurseryLeft(left *nursery) {
	if t.hasParts {
		t.mutex.Lock()
		t.tellGone("leave ", left.line.name)
		t.mutex.Unlock()
	}
}

// joined has the task join its own nursery, if it has joined the last task that this has started. Its mutex is held.
func (t *tracer) joined(by *task, from starter) {
	if from.of == nil {
		return
	}
	isLast := from.of.unjoined.Add(-1) == 0
	if from.nursery == nil {
		return
	}
	isOver := from.nursery.awaited.Add(-1) == 0 && from.nursery.isOver.Load()
	switch {
	case isOver && isLast && from.nursery.of == &by.offspring:
		by.report(&report{kind: "join", name: from.nursery.line.name, site: nowhere, label: "join " + from.nursery.line.name})
		by.offspring.unjoined.Add(-1)
	case isOver:
		t.tellNurseryLeft(from.nursery)
	}
}

// notJoined counts a task no longer among those that somebody may join.
func (t *tracer) notJoined(from starter) {
	if from.nursery != nil && from.nursery.awaited.Add(-1) == 0 && from.nursery.isOver.Load() {
		t.tellNurseryLeft(from.nursery)
	}
}
