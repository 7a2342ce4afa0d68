package itctrace

import (
	"errors"
	"fmt"
	"os"
	"strconv"
	"strings"
)

const (
	portVariable    = "ITC_TRACE_PORT"
	tenantVariable  = "ITC_TRACE_TENANT"
	processVariable = "ITC_TRACE_PROCESS"
	journalVariable = "ITC_TRACE_JOURNAL"
	// partsVariable says that the relay divides a long run into parts.
	partsVariable = "ITC_TRACE_PARTS"
	// nurseriesVariable has two numbers, as in "2 3": from how many children on a task has nurseries, and how many each of these starts.
	nurseriesVariable = "ITC_TRACE_NURSERIES"
	mostName          = 24
	// mostTag is how many letters and digits of the name of a process stand before the names of its tasks.
	mostTag     = 8
	anyProcess  = "p"
	mostPort    = 65535
	ownTenant   = "trace"
	permissions = 0o666
)

// environment says where a process reports to.
type environment struct {
	port                     int
	tenant, process, journal string
	hasParts                 bool
	width                    width
}

// readEnvironment gives nil if the environment names no port.
func readEnvironment() (*environment, error) {
	named := os.Getenv(portVariable)
	if named == "" {
		return nil, nil
	}
	port, err := strconv.Atoi(named)
	if err != nil || port < 1 || port > mostPort {
		return nil, fmt.Errorf("%s is %s, which is no port: set it to a number from 1 to %d", portVariable, named, mostPort)
	}
	tenant := os.Getenv(tenantVariable)
	if tenant == "" {
		tenant = ownTenant
	}
	process := os.Getenv(processVariable)
	if process == "" {
		process = anyProcess
	}
	wide, err := widthOf(os.Getenv(nurseriesVariable))
	if err != nil {
		return nil, err
	}
	return &environment{port, tenant, process, os.Getenv(journalVariable), os.Getenv(partsVariable) != "", wide}, nil
}

func widthOf(named string) (wide width, err error) {
	wide = width{fewChildren, manyPlaces}
	if named == "" {
		return wide, nil
	}
	if count, _ := fmt.Sscanf(named, "%d %d", &wide.children, &wide.places); count < 2 || wide.children < 0 || wide.places < 1 {
		err = fmt.Errorf("%s is %s, which is not two numbers: set it to two as in \"32 32\"", nurseriesVariable, named)
	}
	return wide, err
}

func isLetterOrDigit(next rune) bool {
	return next >= '0' && next <= '9' || next >= 'A' && next <= 'Z' || next >= 'a' && next <= 'z'
}

// lettersOf is a text with an underscore in place of what no name may have, with so many letters at most.
func lettersOf(text string, most int) string {
	letters := strings.Map(func(next rune) rune {
		if isLetterOrDigit(next) {
			return next
		}
		return '_'
	}, text)
	if len(letters) > most {
		letters = letters[:most]
	}
	return strings.Trim(letters, "_")
}

// numbered is the name with this number, if that is not 1. Its end makes room for the number.
func numbered(name string, number, most int) string {
	behind := ""
	if number > 1 {
		behind = fmt.Sprintf("_%d", number)
	}
	if len(name) > most-len(behind) {
		name = name[:most-len(behind)]
	}
	return name + behind
}

// taskOf is what the task of a process is called.
func taskOf(process string) string {
	if letters := lettersOf(process, mostName); letters != "" {
		return letters
	}
	return anyProcess
}

// tagOf is what the names of the process's other tasks begin with.
func tagOf(process string) string {
	letters := strings.ReplaceAll(lettersOf(process, len(process)), "_", "")
	if letters == "" {
		return anyProcess
	}
	return letters[:min(len(letters), mostTag)]
}

// freshJournal makes a file that was not there, if a journal is wanted. A process that is started again does not overwrite its first one.
// It gives the journals of those that came before it, too.
func (e *environment) freshJournal() (file *os.File, earlier []string, err error) {
	if e.journal == "" {
		return nil, nil, nil
	}
	for number := 1; ; number++ {
		tried := e.journal
		if number > 1 {
			tried = fmt.Sprintf("%s.%d", e.journal, number)
		}
		file, err := os.OpenFile(tried, os.O_WRONLY|os.O_CREATE|os.O_EXCL|os.O_APPEND, permissions)
		if !errors.Is(err, os.ErrExist) {
			return file, earlier, err
		}
		earlier = append(earlier, tried)
	}
}
