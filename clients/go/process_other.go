//go:build !linux

package itctrace

import "os"

// lockFile locks no file here: nothing is told of processes that came before.
func lockFile(*os.File, bool) bool { return false }

// isWaitedFor tells whether a thread of this process waits for the end of that one, which is not known here.
func isWaitedFor(int) bool { return false }
