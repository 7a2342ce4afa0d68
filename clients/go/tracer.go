package itctrace

import (
	"bufio"
	"bytes"
	"fmt"
	"io"
	"net"
	"os"
	"runtime"
	"strconv"
	"strings"
	"sync"
	"sync/atomic"
	"time"
)

const (
	mostEvents = 16384
	// mostHints is how many names that the program has given are known at most. Later ones have a number.
	mostHints  = 8192
	mostUnsent = 1 << 16
	mostGone   = 1 << 10
	// mostWaiting is how many reports are on their way before the program waits, and fewWaiting those at which it goes on.
	mostWaiting = 40_000
	fewWaiting  = 20_000
	// manyKept is how many more messages and ended tasks are kept before it is looked which of them nobody can come after any more. A part
	// of a trace has room for 2048 tasks, and each message that goes on from part to part takes its task along.
	manyKept = 1_000
	rest     = 2 * time.Millisecond
	// oldAge is after how many looks at all tasks a place is reported that nobody has come after.
	oldAge      = 2
	lookAgain   = time.Second
	answerWait  = 10 * time.Second
	endWait     = 60 * time.Second
	goneMessage = "the collector is gone"
)

// report is on its way. Its name is that of a task or a message, if it has one.
type report struct {
	kind, task, name string
	time             float64
	site             *site
	label            string
	lock             *lock
	isGuard          bool
	touches          *touches
	mayBeRefused     bool
	// mayBeReceived tells whether the task may have the message already, as it does not keep all that it knows of tasks that have ended.
	mayBeReceived bool
	answered      chan struct{}
}

// tracer reports for one process to one tenant. The program's goroutines only add to what is to be sent. A goroutine of the tracer sends
// it and writes the journal, and another one reads the replies.
type tracer struct {
	begun        time.Time
	main, others *task
	// process is what the process is called in full, and tag what its tasks begin with if that is free.
	process, tag string
	connection   net.Conn
	replies      *bufio.Reader
	journal      *os.File
	hasParts     bool
	width        width
	parent       *parentProcess
	strangers    strangers
	tasksMutex   sync.Mutex
	tasks        map[*task]bool
	locks        atomic.Int64
	children     atomic.Int64
	isOver       atomic.Bool
	waiting      atomic.Int64
	messages     atomic.Int64
	// kept is how many messages and ended tasks somebody may come after, as far as it is known. From more than mostKept on it is looked.
	kept, mostKept atomic.Int64
	isIdle         atomic.Bool
	changed        chan struct{}
	hurried        chan struct{}
	sent           chan struct{}
	sendMutex      sync.Mutex
	goneMutex      sync.Mutex
	gone           []*token
	listMutex      sync.Mutex
	listed         []*touches
	mutex          sync.Mutex
	prefix         string
	names          map[string]int
	unsent         []byte
	unwritten      []byte
	outstanding    []*report
	reports        int
	isClosing      bool
	// lastRow is the last line of the journal, once it is known which.
	lastRow string
}

func newTracer(from *environment) (*tracer, error) {
	connection, err := net.Dial("tcp", fmt.Sprintf("127.0.0.1:%d", from.port))
	if err != nil {
		return nil, err
	}
	t := &tracer{
		begun: time.Now(), connection: connection, replies: bufio.NewReaderSize(connection, mostUnsent), names: map[string]int{},
		hasParts: from.hasParts, width: from.width, tasks: map[*task]bool{}, strangers: strangers{known: map[uint64]bool{}, limit: manyStrangers},
		changed: make(chan struct{}, 1), hurried: make(chan struct{}, 1), sent: make(chan struct{}),
	}
	t.mostKept.Store(manyKept)
	if err = t.begin(from); err != nil {
		connection.Close()
		return nil, err
	}
	return t, nil
}

// now is the time by the clock of this process, in seconds since 1970.
func (t *tracer) now() float64 {
	return float64(t.begun.UnixMicro()+time.Since(t.begun).Microseconds()) / 1e6
}

// begin takes a task of its own in a trace that others report to as well, and a first part for the names of all its tasks.
func (t *tracer) begin(from *environment) error {
	opening := "report " + from.tenant
	if t.hasParts {
		opening += "\nparts"
	}
	count, err := t.ask(opening + "\ncount")
	if err != nil {
		return err
	}
	if !strings.HasPrefix(count, "200 ") {
		return fmt.Errorf("tenant %s at port %d: %s", from.tenant, from.port, count)
	}
	var earlier []string
	if t.parent = readParent(); t.parent != nil {
		err = t.beginAsChild(from)
	} else if t.journal, earlier, err = from.freshJournal(); err == nil {
		err = t.spawnMain(from.process)
	}
	if err == nil {
		err = t.spawnOthers()
	}
	if err == nil {
		err = t.comeAfter(earlier)
	}
	if err == nil {
		t.listenToChildren(from)
	}
	return err
}

func (t *tracer) spawnMain(process string) error {
	for number := 1; ; number++ {
		tried := numbered(taskOf(process), number, mostName)
		isTaken, err := t.spawnFirst("root", tried, "start process "+tried)
		if err != nil {
			return err
		}
		if !isTaken {
			t.main, t.process, t.tag = newTask(tried), processOf(process, number), tagOf(process)
			return nil
		}
	}
}

// processOf is what a process is called that was started so many times.
func processOf(name string, number int) string {
	if number > 1 {
		return fmt.Sprintf("%s %d", name, number)
	}
	return name
}

// spawnOthers starts the task that all goroutines are of that nobody was seen to start. It has the first part of all names for this process.
func (t *tracer) spawnOthers() error {
	for number := 1; ; number++ {
		t.prefix = tagNumbered(t.tag, number) + "_"
		isTaken, err := t.spawnFirst(t.main.name, t.prefix+"others", "start "+t.prefix+"others")
		if err != nil {
			return err
		}
		if !isTaken {
			if t.parent == nil {
				t.unwritten = append(t.unwritten, processRow(t.process, tagNumbered(t.tag, number))...)
			}
			t.names["others"] = 1
			t.main.events++
			t.others = newTask(t.prefix + "others")
			t.tasks[t.main], t.tasks[t.others] = true, true
			return nil
		}
	}
}

func tagNumbered(tag string, number int) string {
	if number == 1 {
		return tag
	}
	behind := strconv.Itoa(number)
	return tag[:min(len(tag), mostTag-len(behind))] + behind
}

// spawnFirst starts a task before all else is reported. It tells whether the name is taken.
func (t *tracer) spawnFirst(parent, child, label string) (isTaken bool, err error) {
	reply, isTold, err := t.reportFirst("spawn", parent, child, label)
	if err == nil && !isTold && !strings.HasPrefix(reply, "402") {
		err = fmt.Errorf("spawn %s %s: %s", parent, child, reply)
	}
	return !isTold, err
}

func (t *tracer) reportFirst(kind, task, name, label string) (reply string, isTold bool, err error) {
	at := t.now()
	if reply, err = t.ask(strings.TrimSuffix(kind+" "+task+" "+name, " ")); err != nil {
		return "", false, err
	}
	if task == "root" {
		at = t.now() // A process begins when the collector has answered.
	}
	event, part := eventOf(reply)
	if event > 0 {
		told := row{event: event, part: part, time: at, task: task, kind: kind, label: label, of: t.named(name)}
		t.unwritten = told.appendTo(t.unwritten)
	}
	return reply, event > 0, nil
}

func (t *tracer) ask(lines string) (string, error) {
	if _, err := io.WriteString(t.connection, lines+"\n"); err != nil {
		return "", err
	}
	reply, err := t.replies.ReadString('\n')
	if err != nil {
		return "", fmt.Errorf("the collector has ended the session: %w", err)
	}
	return strings.TrimSuffix(reply, "\n"), nil
}

// eventOf gives the number of the event that was reported, and its part of the trace. Both are 0 if the report was refused.
func eventOf(reply string) (event, part int) {
	words := strings.Split(reply, " ")
	if words[0] != "201" || len(words) < 2 {
		return 0, 0
	}
	event, _ = strconv.Atoi(words[1])
	part = 1
	if len(words) > 2 {
		part, _ = strconv.Atoi(words[2])
	}
	return event, part
}

// start begins to report what is noted.
func (t *tracer) start() {
	go t.sendAll()
	go t.readAll()
}

// What tasks do

// put has a report sent with the next ones. The mutex of its task is held.
func (t *tracer) put(told *report) {
	t.mutex.Lock()
	defer t.mutex.Unlock()
	t.reports++
	if t.isClosing {
		go tellLate(nowhere) // It was noted while the trace ended.
	}
	if t.isClosing || t.isOver.Load() || !t.hasParts && t.reports > mostEvents+1 { // No trace takes so many: the reply that says so is on its way.
		if told.answered != nil {
			close(told.answered)
		}
		return
	}
	if told.time == 0 {
		told.time = t.now()
	}
	t.unsent = append(append(append(t.unsent, told.kind...), ' '), told.task...)
	if told.name != "" {
		t.unsent = append(append(t.unsent, ' '), told.name...)
	}
	t.unsent = append(t.unsent, '\n')
	t.outstanding = append(t.outstanding, told)
	t.waiting.Store(int64(len(t.outstanding)))
	if len(t.unsent) > mostUnsent {
		t.hurry()
	}
	t.wake()
}

// list has the touches of an event written to the journal. The mutex of their task is held.
func (t *tracer) list(one *touches) {
	if one.isListed || !one.isReported || len(one.fresh) == 0 {
		return
	}
	one.isListed = true
	t.listMutex.Lock()
	t.listed = append(t.listed, one)
	t.listMutex.Unlock()
	t.wake()
}

// dropSoon has a token be one that nobody can take any more. Many of them are dropped together, so that their task seldom waits.
func (t *tracer) dropSoon(gone *token) {
	t.goneMutex.Lock()
	defer t.goneMutex.Unlock()
	t.gone = append(t.gone, gone)
	if len(t.gone) == mostGone {
		t.wake()
	}
}

func (t *tracer) dropGone() {
	t.goneMutex.Lock()
	gone := t.gone
	t.gone = nil
	t.goneMutex.Unlock()
	var locked *task
	for _, one := range gone {
		if one.task != locked {
			if locked != nil {
				locked.mutex.Unlock()
			}
			locked = one.task
			locked.mutex.Lock()
		}
		locked.drop(one)
	}
	if locked != nil {
		locked.mutex.Unlock()
	}
}

func (t *tracer) newMessage(called *what) *message {
	number := strconv.FormatInt(t.messages.Add(1), 10)
	hint := called.hint
	if room := mostName - len(t.prefix) - len(number) - 1; len(hint) > room {
		hint = hint[:room]
	}
	made := &message{name: t.prefix + hint + "_" + number, lock: called.lock}
	if t.hasParts {
		t.kept.Add(1)
		runtime.SetFinalizer(made, func(gone *message) { t.forget(gone.name) })
	}
	return made
}

// forgetNow is the same as forget, before a collection of garbage finds the message.
func (t *tracer) forgetNow(gone *message) {
	if t.hasParts {
		runtime.SetFinalizer(gone, nil)
		t.forget(gone.name)
	}
}

// forget tells that nobody can receive a message any more, behind all receipts of it. The next part of the trace begins without it.
func (t *tracer) forget(message string) {
	t.mutex.Lock()
	defer t.mutex.Unlock()
	t.tellGone("forget ", message)
	t.keepLess()
}

// tellGone tells what gives no order any more. The mutex is held.
func (t *tracer) tellGone(how, name string) {
	if !t.isOver.Load() {
		t.unsent = append(append(append(t.unsent, how...), name...), '\n')
	}
}

// leave has nobody wait for a task any more.
func (t *tracer) leave(gone *task) {
	gone.mutex.Lock()
	defer gone.mutex.Unlock()
	gone.isLeft = true
	if gone.end != nil {
		gone.drop(gone.end)
		gone.end = nil
	}
	if gone.isEnded.Load() {
		t.tellLeft(gone)
	}
}

// tellLeft tells that nobody can wait any more for a task that has ended. Its mutex is held.
func (t *tracer) tellLeft(gone *task) {
	if t.hasParts && gone.joinedBy == nil {
		t.mutex.Lock()
		t.tellGone("leave ", gone.name)
		t.mutex.Unlock()
	}
	if gone.joinedBy == nil {
		t.notJoined(gone.starter)
		gone.starter = starter{}
	}
	t.keepNot(gone)
}

// keepNot counts an ended task no longer among those that somebody may come after. Its mutex is held.
func (t *tracer) keepNot(gone *task) {
	if gone.isKept {
		gone.isKept = false
		t.mutex.Lock()
		t.keepLess()
		t.mutex.Unlock()
	}
}

// keepLess counts one less. The mutex is held.
func (t *tracer) keepLess() {
	if left := t.kept.Add(-1) + manyKept; left < t.mostKept.Load() {
		t.mostKept.Store(left)
	}
}

// lookForGone has a collection of garbage find what is no more, if much is kept.
func (t *tracer) lookForGone() {
	if kept := t.kept.Load(); t.hasParts && kept > t.mostKept.Load() {
		t.mostKept.Store(kept + manyKept)
		go runtime.GC() // What was noted is sent meanwhile.
	}
}

func (t *tracer) spawn(parent *task, hint string, at *site) *task {
	child := newTask(t.freshName(hint))
	t.tasksMutex.Lock()
	t.tasks[child] = true
	t.tasksMutex.Unlock()
	parent.mutex.Lock()
	defer parent.mutex.Unlock()
	t.startChild(parent, child, at)
	child.know(source{parent, nil}, parent.events)
	return child
}

// stranger is a task that comes after nothing but the beginning of the trace.
func (t *tracer) stranger(hint string) *task { return t.spawn(t.others, hint, nowhere) }

var ending = &what{hint: "end", giving: "end", taking: "see the end"}

// end ends the task. If several may wait for it, a message tells them.
func (t *tracer) end(of *task, isAwaited bool) {
	t.tasksMutex.Lock()
	delete(t.tasks, of)
	t.tasksMutex.Unlock()
	of.mutex.Lock()
	defer of.mutex.Unlock()
	if of.isEnded.Load() {
		return
	}
	isLeft := of.isLeft || !isAwaited
	if !isLeft {
		of.end = of.mark(ending, nowhere)
	}
	t.leaveNursery(of)
	of.report(&report{kind: "end", label: "end"})
	of.isEnded.Store(true)
	of.known = nil // Else each keeps the ones that it came after.
	if isLeft {
		t.tellLeft(of)
	} else {
		of.isKept = true
		t.kept.Add(1)
	}
}

// join has the task see that the child is done.
func (t *tracer) join(by, child *task, at *site) {
	child.mutex.Lock()
	joinedBy, end := child.joinedBy, child.end
	isFirst := child.isEnded.Load() && joinedBy == nil
	from := child.starter
	if isFirst {
		child.joinedBy, child.starter = by, starter{}
		t.keepNot(child)
	}
	child.mutex.Unlock()
	switch {
	case isFirst:
		by.mutex.Lock()
		by.report(&report{kind: "join", name: child.name, site: at, label: "join " + child.name})
		t.joined(by, from)
		by.mutex.Unlock()
		by.know(source{child, nil}, child.events)
	case joinedBy != nil && joinedBy != by && end != nil:
		by.take(end, at)
	}
}

// sending is a message that is on its way to the collector.
type sending struct {
	name     string
	answered chan struct{}
}

// send sends a message of a name that was reserved. The journal says what it carries. Who is in another process may be told of it once the
// collector has it. In this process it may be received at once, as its receipt is reported behind it.
func (t *tracer) send(of *task, named, carried string, at *site) *sending {
	sent := &sending{named, make(chan struct{})}
	of.mutex.Lock()
	of.report(&report{kind: "send", name: named, site: at, label: "send " + carried, answered: sent.answered})
	of.mutex.Unlock()
	return sent
}

// has waits until the collector has the message, so that no receipt can come before. It tells whether the collector has it.
func (t *tracer) has(sent *sending) bool {
	return t.isAnswered(sent.answered) && !t.isOver.Load()
}

// isAnswered sends what is to be reported, and waits for an answer.
func (t *tracer) isAnswered(answered chan struct{}) bool {
	t.sendLines()
	late := time.NewTimer(answerWait)
	defer late.Stop()
	select {
	case <-answered:
		return true
	case <-late.C:
		return false
	}
}

// outside gives each message to another process a name.
func (t *tracer) outside() string {
	number := strconv.FormatInt(t.messages.Add(1), 10)
	return t.prefix + "out_"[:min(len("out_"), mostName-len(t.prefix)-len(number))] + number
}

func (t *tracer) incoming(of *task, named, label string, at *site) {
	of.mutex.Lock()
	defer of.mutex.Unlock()
	of.report(&report{kind: "recv", name: named, site: at, label: label, mayBeRefused: true})
}

// holdBack has the program wait if it notes faster than the collector takes.
func (t *tracer) holdBack() {
	for t.waiting.Load() > fewWaiting && !t.isOver.Load() {
		time.Sleep(time.Millisecond)
	}
}

// freshName is a name that no other task of this process has, short and readable.
func (t *tracer) freshName(hint string) string {
	t.mutex.Lock()
	defer t.mutex.Unlock()
	room := mostName - len(t.prefix)
	base := lettersOf(hint, room)
	for strings.Contains(base, "__") {
		base = strings.ReplaceAll(base, "__", "_")
	}
	if base == "" {
		base = "task"
	}
	if t.names[base] == 0 && len(t.names) < mostHints && !t.isNumbered(base) {
		t.names[base] = 1
		return t.prefix + base
	}
	if t.names[base] == 0 && len(t.names) >= mostHints {
		base = "task" // So many names are not kept.
	}
	for number := 2; ; number++ {
		stem := base[:min(len(base), room-len(numbered("", number, mostName)))]
		if number <= t.names[stem] {
			number = t.names[stem]
			continue
		}
		t.names[stem] = number
		if made := numbered(stem, number, room); t.names[made] == 0 {
			return t.prefix + made
		}
	}
}

// isNumbered tells whether the name was given to a task with a number: "go_2" is the second task that is called "go".
func (t *tracer) isNumbered(base string) bool {
	place := strings.LastIndex(base, "_")
	if place < 1 {
		return false
	}
	number, err := strconv.Atoi(base[place+1:])
	return err == nil && number > 1 && t.names[base[:place]] >= number
}

// The end

func (t *tracer) wake() {
	if t.isIdle.CompareAndSwap(true, false) {
		select {
		case t.changed <- struct{}{}:
		default: // It is awake already.
		}
	}
}

func (t *tracer) hurry() {
	select {
	case t.hurried <- struct{}{}:
	default:
	}
}

func (t *tracer) liveTasks() []*task {
	t.tasksMutex.Lock()
	defer t.tasksMutex.Unlock()
	tasks := make([]*task, 0, len(t.tasks))
	for one := range t.tasks {
		tasks = append(tasks, one)
	}
	return tasks
}

// flush waits until all that was noted by now is in the journal, if the collector answers.
func (t *tracer) flush(most time.Duration) {
	for _, one := range t.liveTasks() {
		one.mutex.Lock()
		one.leave()
		one.mutex.Unlock()
	}
	for until := time.Now().Add(most); t.isUnwritten() && time.Now().Before(until) && !t.isOver.Load(); {
		t.wake()
		t.hurry()
		time.Sleep(rest / 4)
	}
}

func (t *tracer) isUnwritten() bool {
	isListed := t.isListed()
	t.mutex.Lock()
	defer t.mutex.Unlock()
	return isListed || len(t.outstanding) > 0 || len(t.unwritten) > 0
}

// isListed tells whether touches are to be written to the journal.
func (t *tracer) isListed() bool {
	t.listMutex.Lock()
	defer t.listMutex.Unlock()
	return len(t.listed) > 0
}

// close waits until all that was noted is answered, and writes the journal's last line.
func (t *tracer) close() {
	for _, one := range t.liveTasks() {
		one.mutex.Lock()
		one.settle()
		t.endNursery(one)
		one.mutex.Unlock()
	}
	if t.parent != nil {
		t.main.mutex.Lock()
		t.main.report(&report{kind: "end", label: "end"})
		t.main.mutex.Unlock()
	}
	t.mutex.Lock()
	t.isClosing = true
	t.mutex.Unlock()
	defer t.parent.toldParent()
	for left := int64(-1); left != t.waiting.Load(); {
		left = t.waiting.Load()
		t.wake()
		t.hurry()
		select {
		case <-t.sent:
			return
		case <-time.After(endWait):
		}
	}
	t.giveUp(causeCollector, "the collector does not answer")
	t.awaitLastRow()
}

// awaitLastRow waits until the journal has its last line.
func (t *tracer) awaitLastRow() {
	select {
	case <-t.sent:
	case <-time.After(answerWait):
	}
}

// endBy tells by what the process is about to end, and ends the trace.
func (t *tracer) endBy(reason string) {
	t.mutex.Lock()
	t.unwritten = append(t.unwritten, unseenRow(causeKilled, reason)...)
	t.mutex.Unlock()
	Trace{}.End()
}

// giveUp ends tracing in the middle. The program goes on.
func (t *tracer) giveUp(cause, reason string) {
	t.mutex.Lock()
	defer t.mutex.Unlock()
	t.giveUpNow(cause, reason)
}

// giveUpNow is giveUp for whoever holds the mutex.
func (t *tracer) giveUpNow(cause, reason string) {
	if t.isOver.Swap(true) {
		return
	}
	phase.CompareAndSwap(isTracing, isUntraced)
	t.lastRow = unseenRow(cause, reason)
	for _, one := range t.outstanding {
		if one.answered != nil {
			close(one.answered)
		}
	}
	t.outstanding = nil
	t.waiting.Store(0)
	t.connection.Close()
	fmt.Fprintf(os.Stderr, "itc_trace: tracing stops: %s\n", reason)
	t.hurry()
}

// The goroutine that sends, and writes the journal

func (t *tracer) sendAll() {
	defer close(t.sent)
	defer t.connection.Close()
	looking := time.NewTicker(lookAgain)
	defer looking.Stop()
	for !t.sendSome() {
		t.isIdle.Store(true)
		if t.hasSomething() {
			t.wake()
		}
		select {
		case <-t.changed:
			select {
			case <-t.hurried:
			case <-time.After(rest):
			}
		case <-t.hurried:
			t.isIdle.Store(false)
			select {
			case <-t.changed:
			default:
			}
		case <-looking.C:
			t.isIdle.Store(false)
			select {
			case <-t.changed:
			default:
			}
			t.lookAtAll()
		}
	}
}

func (t *tracer) hasSomething() bool {
	isListed := t.isListed()
	t.mutex.Lock()
	defer t.mutex.Unlock()
	return isListed || len(t.unsent) > 0 || len(t.unwritten) > 0
}

// lookAtAll reports places that nobody has come after for long, if anything was touched behind them: it is in the journal soon then.
func (t *tracer) lookAtAll() {
	for _, one := range t.liveTasks() {
		one.mutex.Lock()
		if one.first != nil && (one.first != one.last || one.sincePlace != nil) {
			if one.first.age++; one.first.age >= oldAge {
				one.leave()
			}
		}
		one.mutex.Unlock()
	}
}

// sendSome tells whether that was the last of it.
func (t *tracer) sendSome() bool {
	t.lookForGone()
	t.dropGone()
	t.writeTouches()
	t.mutex.Lock()
	isDone := t.isClosing && len(t.outstanding) == 0 && len(t.unsent) == 0 && !t.isListed() // The last reply may have come just now.
	isLast := isDone || t.isOver.Load()
	if isLast && !t.isOver.Swap(true) {
		t.lastRow = endRow
		if t.parent != nil {
			t.lastRow = childEndRow(t.main.name)
		}
	}
	if isLast {
		t.unwritten = append(t.unwritten, t.lastRow...)
	}
	rows := t.unwritten
	t.unwritten = nil
	t.mutex.Unlock()
	if t.journal != nil && len(rows) > 0 {
		if _, err := t.journal.Write(rows); err != nil {
			t.giveUp(causeJournal, "the journal cannot be written: "+err.Error())
		}
	}
	if !isLast {
		t.sendLines()
	}
	return isLast
}

// sendLines sends what is to be reported, in its order.
func (t *tracer) sendLines() {
	t.sendMutex.Lock()
	defer t.sendMutex.Unlock()
	t.mutex.Lock()
	lines := t.unsent
	t.unsent = nil
	t.mutex.Unlock()
	if len(lines) == 0 {
		return
	}
	if _, err := t.connection.Write(lines); err != nil {
		t.giveUp(causeCollector, goneMessage)
	}
	if cap(lines) <= mostUnsent {
		t.mutex.Lock()
		if t.unsent == nil {
			t.unsent = lines[:0] // Else it grows anew each time.
		}
		t.mutex.Unlock()
	}
}

// writeTouches brings the journal up to what was touched by now.
func (t *tracer) writeTouches() {
	t.listMutex.Lock()
	listed := t.listed
	t.listed = nil
	t.listMutex.Unlock()
	if len(listed) == 0 {
		return
	}
	var rows []byte
	for _, one := range listed {
		event := one.event.Load()
		one.task.mutex.Lock()
		fresh := one.fresh
		one.fresh, one.isListed = nil, false
		one.task.mutex.Unlock()
		for _, told := range fresh {
			rows = t.rowOf(one, told, event).appendTo(rows)
		}
	}
	t.mutex.Lock()
	t.unwritten = append(t.unwritten, rows...)
	t.mutex.Unlock()
}

const partBits = 32

func (t *tracer) rowOf(all *touches, told touch, event int64) row {
	if wait := told.wait; wait != nil {
		return t.timed(all, row{
			event: int(event & (1<<partBits - 1)), part: int(event >> partBits), task: all.task.name, kind: "local", site: told.site,
			label: "acquire " + wait.wants[strings.Index(wait.wants, " ")+1:], held: told.held, wants: wait.wants, places: wait.places,
			shared: wait.shared,
		})
	}
	kind, named := "read", told.thing
	if told.writes {
		kind = "write"
	}
	if !told.isAcross {
		named = told.thing + " of " + t.process
	}
	made := row{
		event: int(event & (1<<partBits - 1)), part: int(event >> partBits), task: all.task.name, thing: named, isTouch: true, kind: kind,
		site: told.site, label: kind + " " + told.thing, held: told.held,
	}
	return t.timed(all, made)
}

// timed is the row with the time of its event, if no other row has told that.
func (t *tracer) timed(all *touches, made row) row {
	if !all.isTimeTold {
		all.isTimeTold, made.time = true, all.begun
	}
	return made
}

// The goroutine that reads replies

func (t *tracer) readAll() {
	for {
		reply, err := t.replies.ReadSlice('\n')
		if err != nil {
			t.giveUp(causeCollector, goneMessage)
			return
		}
		t.replied(string(bytes.TrimSuffix(reply, []byte("\n"))))
	}
}

// replied takes over a reply. If it is a refusal, tracing ends before the mutex is free: else the goroutine that sends may take all
// for answered in between, and end the journal as a whole one.
func (t *tracer) replied(reply string) {
	event, part := eventOf(reply)
	t.mutex.Lock()
	defer t.mutex.Unlock()
	if len(t.outstanding) == 0 {
		return
	}
	answered := t.outstanding[0]
	t.outstanding[0] = nil
	t.outstanding = t.outstanding[1:]
	t.waiting.Store(int64(len(t.outstanding)))
	switch {
	case event > 0 && answered.touches != nil:
		answered.touches.event.Store(int64(part)<<partBits | int64(event))
		t.listMutex.Lock()
		t.listed = append(t.listed, answered.touches)
		t.listMutex.Unlock()
	case event > 0:
		t.unwritten = t.rowOfReport(answered, event, part).appendTo(t.unwritten)
	case strings.HasPrefix(reply, "413") || strings.HasPrefix(reply, "414") || strings.HasPrefix(reply, "415"):
		t.giveUpNow(causeFull, "the trace is full ("+reply+")")
	case answered.mayBeReceived && strings.HasPrefix(reply, "407"):
	case answered.mayBeRefused && isNotMine(answered.kind, reply):
		// The message of another process was never sent, or this task has it. A task of another process has ended, or was joined.
	default:
		request := strings.TrimSuffix(answered.kind+" "+answered.task+" "+answered.name, " ")
		t.giveUpNow(causeTracer, request+": "+reply)
	}
	if answered.answered != nil {
		close(answered.answered)
	}
	t.wake()
	if len(t.outstanding) == 0 && t.isClosing {
		t.hurry()
	}
}

func isNotMine(kind, reply string) bool {
	codes := "405 407"
	if kind != "recv" {
		codes = "401 403 408 409"
	}
	code, _, _ := strings.Cut(reply, " ")
	return code != "" && strings.Contains(codes, code)
}

func (t *tracer) rowOfReport(told *report, event, part int) row {
	made := row{
		event: event, part: part, time: told.time, task: told.task, kind: told.kind, site: told.site, label: told.label,
		of: t.named(told.name),
	}
	if told.lock != nil {
		made.lock, made.isGuard = told.lock.name, told.isGuard
	}
	return made
}

// tellSignal has the journal say that a lock keeps nobody out.
func (t *tracer) tellSignal(lock *lock) {
	t.mutex.Lock()
	t.unwritten = append(t.unwritten, signalRow(lock.name)...)
	t.mutex.Unlock()
}

// named is what a row says of the name in a report.
func (t *tracer) named(name string) string {
	if t.hasParts {
		return name
	}
	return ""
}
