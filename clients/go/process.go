package itctrace

import (
	"bufio"
	"bytes"
	"context"
	"encoding/json"
	"fmt"
	"net"
	"os"
	"os/exec"
	"path/filepath"
	"regexp"
	"runtime"
	"strconv"
	"strings"
	"time"
)

const (
	// childVariable names the task that a process is, what the names of its tasks begin with, and its name.
	childVariable = "ITC_TRACE_CHILD"
	// parentVariable is where a process asks that was started without a word of this package which of its parent's goroutines waits for it.
	parentVariable = "ITC_TRACE_PARENT"
	childWait      = 2 * time.Second
	lookForWaiter  = 300 * time.Millisecond
)

// parentProcess is the traced process that has started this one, which has begun its task already.
type parentProcess struct {
	task, tag, name string
	// isAsked tells whether the parent has to be told of the end.
	isAsked    bool
	connection net.Conn
}

// readParent gives nil if this process is no child of a traced one. What it starts itself are children of its own.
func readParent() *parentProcess {
	told, asked := os.Getenv(childVariable), os.Getenv(parentVariable)
	os.Unsetenv(childVariable)
	os.Unsetenv(parentVariable)
	if words := strings.SplitN(told, " ", 3); len(words) == 3 {
		return &parentProcess{task: words[0], tag: words[1], name: words[2]}
	}
	if asked == "" {
		return nil
	}
	return askParent(asked)
}

func askParent(port string) *parentProcess {
	connection, err := net.Dial("tcp", "127.0.0.1:"+port)
	if err != nil {
		return nil // The parent has ended.
	}
	connection.SetReadDeadline(time.Now().Add(childWait + answerWait))
	fmt.Fprintf(connection, "%d %d\n", os.Getpid(), os.Getppid())
	reply, err := bufio.NewReader(connection).ReadString('\n')
	words := strings.SplitN(strings.TrimSuffix(reply, "\n"), " ", 3)
	if err != nil || len(words) < 3 {
		connection.Close()
		return nil
	}
	return &parentProcess{words[0], words[1], words[2], true, connection}
}

func (t *tracer) beginAsChild(from *environment) (err error) {
	t.main, t.process, t.tag = newTask(t.parent.task), t.parent.name, t.parent.tag
	if from.journal != "" {
		t.journal, err = os.OpenFile(from.journal, os.O_WRONLY|os.O_CREATE|os.O_APPEND, permissions)
	}
	t.unwritten = append(t.unwritten, childRow(t.main.name, "process "+t.process)...)
	return err
}

// toldParent tells the parent that all was reported, before this process ends.
func (p *parentProcess) toldParent() {
	if p != nil && p.isAsked {
		p.connection.SetDeadline(time.Now().Add(childWait))
		fmt.Fprintln(p.connection, "end")
		bufio.NewReader(p.connection).ReadString('\n')
		p.connection.Close()
	}
}

// Children of this process

// child is a process that was started, and its task.
type child struct {
	task      *task
	tag, name string
}

// beginChild starts the task of a child process. It returns once the collector has it.
func (t *tracer) beginChild(parent *task, hint string, at *site) *child {
	answered := make(chan struct{})
	made := &child{task: newTask(t.freshName(hint))}
	made.tag = fmt.Sprintf("%sc%d", strings.TrimSuffix(t.prefix, "_"), t.children.Add(1))
	if len(made.tag) > mostTag {
		made.tag = made.tag[len(made.tag)-mostTag:]
	}
	made.name = t.process + "/" + strings.TrimPrefix(made.task.name, t.prefix)
	parent.mutex.Lock()
	parent.report(&report{kind: "spawn", name: made.task.name, site: at, label: "start " + made.task.name, answered: answered})
	parent.mutex.Unlock()
	if !t.isAnswered(answered) {
		return nil
	}
	return made
}

// joinProcess has the task come after a child process that has ended. One that did not report to its end is not joined.
func (t *tracer) joinProcess(by *task, ended *task, at *site) {
	by.mutex.Lock()
	defer by.mutex.Unlock()
	by.report(&report{kind: "join", name: ended.name, site: at, label: "join " + ended.name, mayBeRefused: true})
}

func joinChildren(by *task) {
	by.mutex.Lock()
	ended := by.children
	by.children = nil
	by.hasChild.Store(false)
	by.mutex.Unlock()
	for _, one := range ended {
		tracing.joinProcess(by, one, nowhere)
	}
}

// Cmd is an exec.Cmd. If the process reports too, it is a child of this one: it comes after what its starter did before, and whoever waits
// for it comes after its end.
type Cmd struct {
	*exec.Cmd
	child *child
}

// Command makes a command, as exec.Command does.
func Command(name string, words ...string) *Cmd { return &Cmd{Cmd: exec.Command(name, words...)} }

// CommandContext makes a command that is killed once the context is done, as exec.CommandContext does.
func CommandContext(ctx context.Context, name string, words ...string) *Cmd {
	return &Cmd{Cmd: exec.CommandContext(ctx, name, words...)}
}

// Start starts the process.
func (c *Cmd) Start() error {
	if isOn() {
		hint := strings.TrimSuffix(filepath.Base(c.Path), filepath.Ext(c.Path))
		if c.child = tracing.beginChild(own(numberNow()), hint, siteAbove()); c.child != nil {
			if c.Env == nil {
				c.Env = os.Environ()
			}
			c.Env = append(c.Env, fmt.Sprintf("%s=%s %s %s", childVariable, c.child.task.name, c.child.tag, c.child.name))
		}
	}
	return c.Cmd.Start()
}

// Wait waits for the end of the process.
func (c *Cmd) Wait() error {
	fault := c.Cmd.Wait()
	if c.child != nil && isOn() {
		tracing.joinProcess(own(numberNow()), c.child.task, siteAbove())
	}
	return fault
}

// Run starts the process and waits for its end.
func (c *Cmd) Run() error {
	if fault := c.Start(); fault != nil {
		return fault
	}
	return c.Wait()
}

// Output runs the process, and gives what it has written.
func (c *Cmd) Output() ([]byte, error) {
	var output, faults bytes.Buffer
	c.Stdout = &output
	hasFaults := c.Stderr == nil
	if hasFaults {
		c.Stderr = &faults
	}
	fault := c.Run()
	if ended, isEnd := fault.(*exec.ExitError); isEnd && hasFaults {
		ended.Stderr = faults.Bytes()
	}
	return output.Bytes(), fault
}

// CombinedOutput runs the process, and gives what it has written as output and as errors.
func (c *Cmd) CombinedOutput() ([]byte, error) {
	var output bytes.Buffer
	c.Stdout, c.Stderr = &output, &output
	fault := c.Run()
	return output.Bytes(), fault
}

// Processes that are started without a word of this package

// listenToChildren lets such a process ask whose child it is.
func (t *tracer) listenToChildren(from *environment) {
	door, err := net.Listen("tcp", "127.0.0.1:0")
	if err != nil {
		return
	}
	os.Setenv(parentVariable, strconv.Itoa(door.Addr().(*net.TCPAddr).Port))
	go func() {
		for {
			connection, err := door.Accept()
			if err != nil {
				return
			}
			go t.answerChild(connection)
		}
	}()
}

func (t *tracer) answerChild(connection net.Conn) {
	defer connection.Close()
	lines := bufio.NewReader(connection)
	asked, err := lines.ReadString('\n')
	words := strings.Fields(asked)
	if err != nil || len(words) != 2 || !isOn() {
		return
	}
	pid, _ := strconv.Atoi(words[0])
	var waiter *task
	if words[1] == strconv.Itoa(os.Getpid()) {
		waiter = t.waiterOf(pid)
	}
	parent := waiter
	if parent == nil {
		parent = t.others // It is not known when it was started.
	}
	made := t.beginChild(parent, "child", nowhere)
	if made == nil {
		return
	}
	fmt.Fprintln(connection, made.task.name, made.tag, made.name)
	if ended, err := lines.ReadString('\n'); err == nil && ended == "end\n" && waiter != nil {
		waiter.mutex.Lock()
		waiter.children = append(waiter.children, made.task)
		waiter.hasChild.Store(true)
		waiter.mutex.Unlock()
	}
	fmt.Fprintln(connection, "seen")
}

// waiterOf is the task of the goroutine that runs this process by exec.Cmd.Run, and so does nothing else from its start to its end. It is
// nil if that is not certain, as where others wait for a process too.
func (t *tracer) waiterOf(pid int) *task {
	for until := time.Now().Add(lookForWaiter); time.Now().Before(until); time.Sleep(rest) {
		if !isWaitedFor(pid) {
			continue
		}
		waiting := waitingForProcesses()
		if len(waiting) == 1 && bytes.Contains(waiting[0], []byte("os/exec.(*Cmd).Run(")) {
			number, err := strconv.ParseUint(string(bytes.Fields(waiting[0])[1]), 10, 64)
			if err == nil && isWaitedFor(pid) {
				return own(number)
			}
		}
		return nil
	}
	return nil
}

var inWait = regexp.MustCompile(`os\.\(\*Process\)\.(Wait|wait|blockUntilWaitable|pidfdWait)\(`)

// waitingForProcesses has the stacks of all goroutines that wait for the end of a process.
func waitingForProcesses() (waiting [][]byte) {
	stacks := make([]byte, 1<<22)
	stacks = stacks[:runtime.Stack(stacks, true)]
	for _, stack := range bytes.Split(stacks, []byte("\n\n")) {
		if inWait.Match(stack) {
			waiting = append(waiting, stack)
		}
	}
	return waiting
}

// Processes that came before

// comeAfter has this process come after those that wrote these journals, of which it takes the place, if they have ended. A journal is
// locked as long as its process lives.
func (t *tracer) comeAfter(journals []string) error {
	if t.journal != nil && t.parent == nil {
		if !lockFile(t.journal, true) {
			return nil // A file system without locks tells nothing of other processes.
		}
	}
	for _, name := range journals {
		if err := t.takeOver(name); err != nil {
			return err
		}
	}
	return nil
}

func (t *tracer) takeOver(journal string) error {
	file, err := os.Open(journal)
	if err != nil {
		return nil
	}
	defer file.Close()
	if !lockFile(file, false) {
		return nil // It lives, so this one is another process beside it.
	}
	tasks := map[string]bool{}
	lines := bufio.NewReader(file)
	for line, err := lines.ReadBytes('\n'); err == nil; line, err = lines.ReadBytes('\n') {
		var read struct{ Task, Kind, Label string }
		if json.Unmarshal(line, &read) != nil || read.Kind == "" {
			continue
		}
		if read.Task != "root" {
			tasks[read.Task] = true
		}
		switch {
		case read.Kind == "spawn":
			tasks[strings.TrimPrefix(strings.TrimPrefix(read.Label, "start "), "process ")] = true
		case read.Kind == "join":
			delete(tasks, strings.TrimPrefix(read.Label, "join "))
		}
	}
	for one := range tasks {
		for _, kind := range []string{"end " + one, "join " + t.main.name + " " + one} {
			words := append(strings.Split(kind, " "), "")
			if _, _, err := t.reportFirst(words[0], words[1], words[2], "take over "+one); err != nil {
				return err
			}
		}
	}
	return nil
}
