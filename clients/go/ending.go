package itctrace

import (
	"os"
	"os/signal"
	"syscall"
)

// EndBy has these signals end the trace and then the process, as they would end it without a trace. It is for a program that has no handler
// of its own: one that does returns from main, which ends the trace.
func EndBy(signals ...os.Signal) {
	told := make(chan os.Signal, 1)
	signal.Notify(told, signals...)
	go func() {
		by := <-told
		if isOn() {
			tracing.endBy("the program was ended by " + nameOfSignal(by))
		}
		signal.Reset(by)
		if number, isNumber := by.(syscall.Signal); isNumber {
			if own, err := os.FindProcess(os.Getpid()); err == nil && own.Signal(number) == nil {
				select {} // The signal ends the process.
			}
		}
		os.Exit(1)
	}()
}

// nameOfSignal is as SIGTERM.
func nameOfSignal(of os.Signal) string {
	switch of {
	case syscall.SIGTERM:
		return "SIGTERM"
	case os.Interrupt:
		return "SIGINT"
	case syscall.SIGHUP:
		return "SIGHUP"
	}
	return of.String()
}
