package itctrace

import (
	"encoding/json"
	"strconv"
	"strings"
	"unicode/utf8"
)

// endRow is the last line of a journal whose process reported all that it noted.
const endRow = "{\"end\":true}\n"

const (
	causeFull      = "full"
	causeCollector = "collector"
	causeChild     = "child"
	causeJournal   = "journal"
	causeKilled    = "killed"
	causeTracer    = "tracer"
)

// row is what the journal says of one event, or of one of the touches that an event stands for. The time is that of the event, in seconds
// since 1970. It is 0 if another row tells it.
type row struct {
	event, part int
	time        float64
	task, kind  string
	// thing is what was touched, if the row is of a touch.
	thing   string
	isTouch bool
	site    *site
	label   string
	held    string
	lock    string
	// isGuard tells whether others wait for more than the lock.
	isGuard bool
	// wants is the lock that was waited for, and places has where those that are held were acquired.
	wants, places, shared string
	// of is the task or the message that the report names. It is told of runs that may be divided into parts.
	of string
}

func (r row) appendTo(text []byte) []byte {
	text = strconv.AppendInt(append(text, `{"event":`...), int64(r.event), 10)
	if r.part > 1 {
		text = strconv.AppendInt(append(text, `,"part":`...), int64(r.part), 10)
	}
	if r.time != 0 {
		text = strconv.AppendFloat(append(text, `,"time":`...), r.time, 'f', 6, 64)
	}
	text = appendText(append(text, `,"task":`...), r.task)
	if r.isTouch {
		text = appendText(append(text, `,"thing":`...), r.thing)
	} else {
		text = append(text, `,"thing":null`...)
	}
	text = appendText(append(text, `,"kind":`...), r.kind)
	if r.site == nil {
		r.site = nowhere
	}
	text = append(text, r.site.text...)
	text = appendText(append(text, `,"label":`...), r.label)
	if r.held != "" {
		text = append(text, `,"held":[`...)
		for place, one := range strings.Split(r.held[1:], "\n") {
			if place > 0 {
				text = append(text, ',')
			}
			text = appendText(text, one)
		}
		text = append(text, ']')
	}
	if r.wants != "" {
		text = appendText(append(text, `,"wants":`...), r.wants)
		text = append(append(append(text, `,"at":[`...), r.places[1:]...), ']')
	}
	if r.shared != "" {
		text = append(append(append(text, `,"shared":[`...), r.shared[1:]...), ']')
	}
	if r.lock != "" {
		key := `,"lock":`
		if r.isGuard {
			key = `,"guard":`
		}
		text = appendText(append(text, key...), r.lock)
	}
	if r.of != "" {
		text = appendText(append(text, `,"of":`...), r.of)
	}
	return append(text, "}\n"...)
}

// appendText adds a text as JSON.
func appendText(to []byte, text string) []byte {
	for place := 0; place < len(text); place++ {
		if next := text[place]; next < ' ' || next == '"' || next == '\\' || next >= utf8.RuneSelf {
			quoted, err := json.Marshal(text)
			if err != nil {
				panic(err) // A text is always one of JSON.
			}
			return append(to, quoted...)
		}
	}
	return append(append(append(to, '"'), text...), '"')
}

// unseenRow is the line that says what was not seen, and why.
func unseenRow(cause, reason string) string {
	text := appendText([]byte(`{"unseen":`), cause)
	text = appendText(append(text, `,"text":`...), reason)
	return string(append(text, "}\n"...))
}

// signalRow says that a lock keeps nobody out, since another goroutine releases it.
func signalRow(lock string) string {
	return string(append(appendText([]byte(`{"signal":`), lock), "}\n"...))
}

// processRow is the whole name of a process, and what the names of its tasks begin with.
func processRow(name, tag string) string {
	text := appendText([]byte(`{"process":`), name)
	text = appendText(append(text, `,"tag":`...), tag)
	return string(append(text, "}\n"...))
}

// childRow says that a child process adds to this journal.
func childRow(child, how string) string {
	text := appendText([]byte(`{"child":`), child)
	text = appendText(append(text, `,"begun":`...), how)
	return string(append(text, "}\n"...))
}

// childEndRow is the last line of a child process that reported all that it noted.
func childEndRow(child string) string {
	return string(append(appendText([]byte(`{"child":`), child), ",\"ended\":true}\n"...))
}
