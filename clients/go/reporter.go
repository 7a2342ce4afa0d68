package itctrace

import (
	"errors"
	"io"
	"os"
	"sync"
	"time"
)

const taskExists = 402

// Reporter is a process that reports where its environment says, by ITC_TRACE_PORT, ITC_TRACE_TENANT, ITC_TRACE_PROCESS and
// ITC_TRACE_JOURNAL. It has a task of its own under root, and a journal by which python3 -m itc_trace lists the races. Any goroutine
// may use it.
type Reporter struct {
	// Task is the task of this process, and the first part of the names of its other tasks.
	Task    string
	process string
	session *Session
	mutex   sync.Mutex
	journal *os.File
}

// FromEnvironment begins to report. It is nil if the environment names no port.
func FromEnvironment() (*Reporter, error) {
	environment, err := readEnvironment()
	if environment == nil || err != nil {
		return nil, err
	}
	reporter := &Reporter{}
	if reporter.journal, _, err = environment.freshJournal(); err != nil {
		return nil, err
	}
	if reporter.session, err = Open("report", environment.tenant, environment.port); err != nil {
		return nil, err
	}
	if err = reporter.begin(environment.process); err != nil {
		reporter.session.Close()
		return nil, err
	}
	return reporter, nil
}

func (r *Reporter) begin(name string) error {
	for number := 1; ; number++ {
		tried := numbered(taskOf(name), number, mostName)
		event, err := r.session.Spawn("root", tried)
		var refused Refused
		if errors.As(err, &refused) && refused.Code == taskExists {
			continue
		}
		if err != nil {
			return err
		}
		r.Task, r.process = tried, processOf(name, number)
		begun := row{event: event, time: now(), task: "root", kind: "spawn", label: "start process " + tried}.appendTo(nil)
		return r.writeRows(append(begun, processRow(r.process, tagOf(r.Task))...))
	}
}

// Name gives the name of another task of this process, as of a goroutine.
func (r *Reporter) Name(of string) string { return tagOf(r.Task) + "_" + of }

// Touch reports that the task reads or writes the thing, which is of this process, at the line that calls this.
func (r *Reporter) Touch(task, thing string, writes bool) (int, error) {
	return r.touch(task, thing+" of "+r.process, writes)
}

// TouchAcross is the same of a thing that all processes call by this name, as a file.
func (r *Reporter) TouchAcross(task, thing string, writes bool) (int, error) {
	return r.touch(task, thing, writes)
}

func (r *Reporter) touch(task, thing string, writes bool) (int, error) {
	kind := "read"
	if writes {
		kind = "write"
	}
	told := row{time: now(), task: task, thing: thing, isTouch: true, kind: kind, label: kind + " " + thing}
	event, err := r.session.Local(task)
	return r.at(event, err, told)
}

// Spawn reports that the task starts another.
func (r *Reporter) Spawn(task, child string) (int, error) {
	told := row{time: now(), task: task, kind: "spawn", label: "start " + child}
	event, err := r.session.Spawn(task, child)
	return r.at(event, err, told)
}

// Send reports that the task sends a message.
func (r *Reporter) Send(task, message string) (int, error) {
	told := row{time: now(), task: task, kind: "send", label: "send " + message}
	event, err := r.session.Send(task, message)
	return r.at(event, err, told)
}

// Recv reports that the task has received a message.
func (r *Reporter) Recv(task, message string) (int, error) {
	told := row{time: now(), task: task, kind: "recv", label: "receive " + message}
	event, err := r.session.Recv(task, message)
	return r.at(event, err, told)
}

// End reports that the task ends.
func (r *Reporter) End(task string) (int, error) {
	told := row{time: now(), task: task, kind: "end", label: "end"}
	event, err := r.session.End(task)
	return r.at(event, err, told)
}

// Join reports that the task takes in the ended task.
func (r *Reporter) Join(task, child string) (int, error) {
	told := row{time: now(), task: task, kind: "join", label: "join " + child}
	event, err := r.session.Join(task, child)
	return r.at(event, err, told)
}

// Close ends the session. The journal says that all was reported.
func (r *Reporter) Close() error {
	if r.journal != nil {
		if _, err := io.WriteString(r.journal, endRow); err != nil {
			return err
		}
		if err := r.journal.Close(); err != nil {
			return err
		}
	}
	return r.session.Close()
}

// at writes the row of an event at the line of the program that has called.
func (r *Reporter) at(event int, err error, told row) (int, error) {
	if err != nil {
		return 0, err
	}
	told.event, told.site = event, siteAbove()
	return event, r.write(told)
}

func (r *Reporter) write(told row) error { return r.writeRows(told.appendTo(nil)) }

func (r *Reporter) writeRows(rows []byte) error {
	if r.journal == nil {
		return nil
	}
	r.mutex.Lock()
	defer r.mutex.Unlock()
	_, err := r.journal.Write(rows)
	return err
}

// now is the time by the clock of this process, in seconds since 1970.
func now() float64 { return float64(time.Now().UnixMicro()) / 1e6 }
