package itctrace

import (
	"fmt"
	"os"
	"path/filepath"
	"regexp"
	"strconv"
	"strings"
	"syscall"
)

// lockFile locks a file as long as it is open here, and tells whether it could.
func lockFile(file *os.File, isAlone bool) bool {
	how := syscall.LOCK_SH
	if isAlone {
		how = syscall.LOCK_EX
	}
	return syscall.Flock(int(file.Fd()), how|syscall.LOCK_NB) == nil
}

const (
	idIsPid   = 1
	idIsPidfd = 3
)

// isWaitedFor tells whether a thread of this process waits for the end of that one.
func isWaitedFor(pid int) bool {
	threads, _ := filepath.Glob("/proc/self/task/*/syscall")
	for _, thread := range threads {
		text, err := os.ReadFile(thread)
		words := strings.Fields(string(text))
		if err != nil || len(words) < 3 || words[0] != strconv.Itoa(syscall.SYS_WAITID) {
			continue
		}
		kind, _ := strconv.ParseUint(words[1], 0, 64)
		id, _ := strconv.ParseUint(words[2], 0, 64)
		if kind == idIsPid && id == uint64(pid) {
			return true
		}
		if kind == idIsPidfd {
			told, _ := os.ReadFile(fmt.Sprintf("/proc/self/fdinfo/%d", id))
			if regexp.MustCompile(fmt.Sprintf(`(?m)^Pid:\s+%d$`, pid)).Match(told) {
				return true
			}
		}
	}
	return false
}
