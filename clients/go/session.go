// Package itctrace is a client of itc_trace serve: it reports what tasks do, and asks how events are ordered.
package itctrace

import (
	"bufio"
	"fmt"
	"io"
	"net"
	"strconv"
	"strings"
	"sync"
)

// Refused says that a request was refused, with this code.
type Refused struct {
	Code    int
	Request string
	// Reply is the code and its text, as in "401 no task".
	Reply string
}

func (r Refused) Error() string {
	return r.Request + ": " + r.Reply
}

// Session is a connection to one tenant. Any goroutine may use it; a request waits until the one before it is answered.
type Session struct {
	mutex      sync.Mutex
	connection net.Conn
	replies    *bufio.Reader
}

// Event is the report of an event.
type Event struct {
	Kind, Task string
	// Name is the task or message that it names, or "-".
	Name    string
	Follows []int
}

// Open holds a session. With the kind "report" it reports and asks, and is the only one that does; with "view" it asks.
func Open(kind, tenant string, port int) (*Session, error) {
	connection, err := net.Dial("tcp", fmt.Sprintf("127.0.0.1:%d", port))
	if err != nil {
		return nil, err
	}
	session := &Session{connection: connection, replies: bufio.NewReader(connection)}
	// A session that is refused is told so in place of the count.
	if _, err = session.answer(kind+" "+tenant, "count"); err != nil {
		connection.Close()
		return nil, err
	}
	return session, nil
}

// Close ends the session.
func (s *Session) Close() error {
	return s.connection.Close()
}

// Request gives the words of the reply to one line, after its code.
func (s *Session) Request(line string) ([]string, error) { return s.answer(line) }

// answer gives the words of the one reply to these lines.
func (s *Session) answer(lines ...string) ([]string, error) {
	text := strings.Join(lines, "\n") + "\n"
	if strings.Count(text, "\n") > len(lines) {
		return nil, Refused{400, lines[0], "400 line"} // It would be read as two, and answered twice.
	}
	s.mutex.Lock()
	defer s.mutex.Unlock()
	if _, err := io.WriteString(s.connection, text); err != nil {
		return nil, err
	}
	reply, err := s.replies.ReadString('\n')
	if err != nil {
		return nil, fmt.Errorf("the collector has ended the session: %w", err)
	}
	reply = strings.TrimSuffix(reply, "\n")
	word, rest, _ := strings.Cut(reply, " ")
	code, _ := strconv.Atoi(word)
	if code != 200 && code != 201 {
		return nil, Refused{code, lines[0], reply}
	}
	return strings.Split(rest, " "), nil
}

func toNumbers(words []string) ([]int, error) {
	numbers := make([]int, len(words))
	for place, word := range words {
		number, err := strconv.Atoi(word)
		if err != nil {
			return nil, err
		}
		numbers[place] = number
	}
	return numbers, nil
}

func (s *Session) numbers(line string) ([]int, error) {
	words, err := s.Request(line)
	if err != nil {
		return nil, err
	}
	return toNumbers(words)
}

func (s *Session) number(words ...string) (int, error) {
	numbers, err := s.numbers(strings.Join(words, " "))
	if err != nil {
		return 0, err
	}
	return numbers[0], nil
}

func (s *Session) list(query string, event int) ([]int, error) {
	numbers, err := s.numbers(fmt.Sprintf("%s %d", query, event))
	if err != nil {
		return nil, err
	}
	return numbers[1:], nil
}

// Reports: each gives the number of its event.

// Local reports that the task did something.
func (s *Session) Local(task string) (int, error) { return s.number("local", task) }

// Spawn reports that the task starts another.
func (s *Session) Spawn(task, child string) (int, error) { return s.number("spawn", task, child) }

// Send reports that the task sends a message.
func (s *Session) Send(task, message string) (int, error) { return s.number("send", task, message) }

// Recv reports that the task has received a message.
func (s *Session) Recv(task, message string) (int, error) { return s.number("recv", task, message) }

// End reports that the task ends.
func (s *Session) End(task string) (int, error) { return s.number("end", task) }

// Join reports that the task has waited for the end of another.
func (s *Session) Join(task, child string) (int, error) { return s.number("join", task, child) }

// Order tells how event a stands to event b: "same", "before", "after" or "concurrent".
func (s *Session) Order(a, b int) (string, error) {
	words, err := s.Request(fmt.Sprintf("order %d %d", a, b))
	if err != nil {
		return "", err
	}
	return words[0], nil
}

// Past gives the events that happened before this one.
func (s *Session) Past(event int) ([]int, error) { return s.list("past", event) }

// Concurrent gives the events that happened neither before this one nor after it.
func (s *Session) Concurrent(event int) ([]int, error) { return s.list("concurrent", event) }

// Cut gives of each task the last event that this one knows of, increasing; the event itself is among them.
func (s *Session) Cut(event int) ([]int, error) { return s.list("cut", event) }

// Event gives the report of an event.
func (s *Session) Event(event int) (Event, error) {
	words, err := s.Request(fmt.Sprintf("event %d", event))
	if err != nil {
		return Event{}, err
	}
	follows, err := toNumbers(words[4:])
	return Event{words[0], words[1], words[2], follows}, err
}

// Stamp gives the stamp of an event.
func (s *Session) Stamp(event int) (string, error) {
	words, err := s.Request(fmt.Sprintf("stamp %d", event))
	if err != nil {
		return "", err
	}
	return words[0], nil
}

// Task gives "live", "ended" or "joined", and the task's last event.
func (s *Session) Task(task string) (string, int, error) {
	words, err := s.Request("task " + task)
	if err != nil {
		return "", 0, err
	}
	last, err := strconv.Atoi(words[1])
	return words[0], last, err
}

// Message gives the event that sent a message, and the events that received it.
func (s *Session) Message(message string) (int, []int, error) {
	numbers, err := s.numbers("message " + message)
	if err != nil {
		return 0, nil, err
	}
	return numbers[0], numbers[2:], nil
}

// Count tells how many events, tasks and messages there are.
func (s *Session) Count() (events, tasks, messages int, err error) {
	numbers, err := s.numbers("count")
	if err != nil {
		return 0, 0, 0, err
	}
	return numbers[0], numbers[1], numbers[2], nil
}
