package itctrace

import (
	"io"
	"net/http"
	"net/http/httptest"
	"testing"
	"time"
)

// asked makes a request, and tells when all of its response was read.
func asked(client *http.Client, address, message string) <-chan error {
	done := make(chan error, 1)
	go func() {
		request, fault := http.NewRequest(http.MethodGet, address, nil)
		if fault == nil {
			if message != "" {
				request.Header.Set(Header, message)
			}
			var response *http.Response
			if response, fault = client.Do(request); fault == nil {
				_, fault = io.ReadAll(response.Body)
				response.Body.Close()
			}
		}
		done <- fault
	}()
	return done
}

// isDoneSoon tells whether the request is done while the collector answers nothing.
func isDoneSoon(t *testing.T, ask func() <-chan error) bool {
	replying.Lock()
	done := ask()
	select {
	case fault := <-done:
		replying.Unlock()
		if fault != nil {
			t.Fatal(fault)
		}
		return true
	case <-time.After(longEnough):
		replying.Unlock()
		if fault := <-done; fault != nil {
			t.Fatal(fault)
		}
		return false
	}
}

// TestMessagesOfOneProcess: a process that asks itself does not wait for the collector, as its receipts are reported behind what it sends.
// What another process is to receive is not on its way before the collector has it.
func TestMessagesOfOneProcess(t *testing.T) {
	answer := http.HandlerFunc(func(response http.ResponseWriter, _ *http.Request) { io.WriteString(response, "done") })
	own, other := httptest.NewServer(Handler(answer)), httptest.NewServer(answer)
	defer own.Close()
	defer other.Close()
	traced, plain := &http.Client{Transport: Transport{}}, &http.Client{}
	for _, address := range []string{own.URL, other.URL} {
		if fault := <-asked(traced, address, ""); fault != nil { // It makes the connection, of which nothing is known before.
			t.Fatal(fault)
		}
	}
	if !isDoneSoon(t, func() <-chan error { return asked(traced, own.URL, "") }) {
		t.Error("a process that asks itself waits for the collector")
	}
	if isDoneSoon(t, func() <-chan error { return asked(traced, other.URL, "") }) {
		t.Error("a request goes to another server before the collector has its message")
	}
	if isDoneSoon(t, func() <-chan error { return asked(plain, own.URL, "other_1") }) {
		t.Error("a response goes to another process before the collector has its message")
	}
}
