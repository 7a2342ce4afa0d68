package itctrace

import (
	"bufio"
	"hash/maphash"
	"io"
	"net"
	"net/http"
	"net/http/httptrace"
	"strconv"
	"strings"
	"sync/atomic"
)

const (
	// Header is the header of HTTP that carries a message.
	Header = "Itc-Trace"
	// BodyHeader names the message that is sent behind the body of a response, if its head has gone out before.
	BodyHeader = "Itc-Trace-Body"
	// ofBody is what the journal says of the message behind a body.
	ofBody = "the body"
	// mostWords is how many bytes of a request the journal has at most.
	mostWords = 80
	// mostHeld is how many bytes of a body net/http keeps at least before the head of the response goes out.
	mostHeld = 2048
)

// Handler has each request be a task of its own, which comes after what was done before the call of Handler. Where the one who asks is
// traced, the request and the response are messages. Who asks comes after the whole body, once it has read that.
//
//go:noinline
func Handler(handler http.Handler) http.Handler {
	goroutine, counter := here()
	var requests *task
	if isOn() {
		requests = tracing.spawn(own(goroutine), "requests", siteAt(counter))
	}
	return http.HandlerFunc(func(response http.ResponseWriter, request *http.Request) {
		if requests == nil || !isOn() {
			handler.ServeHTTP(response, request)
			return
		}
		as(tracing.spawn(requests, "request", nowhere), false, func() { serve(handler, response, request) })
	})
}

func serve(handler http.Handler, response http.ResponseWriter, request *http.Request) {
	message := request.Header.Get(Header)
	if !isName(message) { // Who asks is not traced, and takes no message.
		handler.ServeHTTP(response, request)
		return
	}
	by := own(numberNow())
	tracing.incoming(by, message, "receive "+inWords(request), nowhere)
	isAskedHere := strings.HasPrefix(message, tracing.prefix)
	if isAskedHere {
		servesHere(request)
	}
	answering := &answering{ResponseWriter: response, by: by, status: http.StatusOK, isAskedHere: isAskedHere}
	handler.ServeHTTP(answering.asGiven(), request)
	answering.end()
}

// inWords is what a request asks, without its query, which may have what nobody else is to read.
func inWords(request *http.Request) string {
	method := request.Method
	if method == "" {
		method = http.MethodGet
	}
	path := request.URL.EscapedPath()
	if path == "" {
		path = "/"
	}
	words := method + " " + path
	return words[:min(len(words), mostWords)]
}

// answering sends a message right before the head of the response goes out, or once the handler is done if it has not gone out. In the
// first case another message follows behind the body.
type answering struct {
	http.ResponseWriter
	by               *task
	head, body       string
	isBegun, isSent  bool
	isTaken, hasBody bool
	// isAskedHere tells whether it is this process that asks. Then nobody waits for the collector.
	isAskedHere bool
	written     int
	status      int
}

// begin names the message in the head, which is not changed any more.
func (a *answering) begin() {
	if a.isBegun || a.isTaken {
		return
	}
	a.isBegun = true
	a.head, a.body = tracing.outside(), tracing.outside()
	a.Header().Set(Header, a.head)
	if a.Header().Get("Content-Length") != "" { // Nothing may follow such a body.
		a.hasBody = true
		a.Header().Set(BodyHeader, a.body)
	}
}

// send sends the message of the head, which is about to go out.
func (a *answering) send() {
	a.begin()
	if !a.isSent && !a.isTaken {
		a.isSent = true
		a.tell(a.head, strconv.Itoa(a.status))
	}
}

func (a *answering) tell(message, carried string) {
	sent := tracing.send(a.by, message, carried, nowhere)
	if !a.isAskedHere {
		tracing.has(sent)
	}
}

// end sends the message that the one who asks is to receive behind the body.
func (a *answering) end() {
	switch {
	case !isOn() || a.isTaken:
	case !a.isSent:
		a.send()
	default:
		a.tell(a.body, ofBody)
		if !a.hasBody {
			a.Header().Set(http.TrailerPrefix+BodyHeader, a.body)
		}
	}
}

// WriteHeader writes the head of the response. One before the last has none of the messages.
func (a *answering) WriteHeader(status int) {
	if status >= http.StatusOK || status == http.StatusSwitchingProtocols {
		a.status = status
		a.begin()
	}
	a.ResponseWriter.WriteHeader(status)
}

// holds tells whether so many bytes more are kept with the head.
func (a *answering) holds(count int) {
	a.begin()
	if a.written += count; a.written >= mostHeld {
		a.send()
	}
}

func (a *answering) Write(text []byte) (int, error) {
	a.holds(len(text))
	return a.ResponseWriter.Write(text)
}

// WriteString writes a text.
func (a *answering) WriteString(text string) (int, error) {
	a.holds(len(text))
	return io.WriteString(a.ResponseWriter, text)
}

// ReadFrom writes what is read.
func (a *answering) ReadFrom(source io.Reader) (int64, error) {
	a.send()
	return io.Copy(a.ResponseWriter, source)
}

// Unwrap gives the writer below to http.ResponseController.
func (a *answering) Unwrap() http.ResponseWriter { return a.ResponseWriter }

// What a writer may have besides. Each is there if the writer below has it.

type (
	flushing  struct{ *answering }
	hijacking struct{ *answering }
	pushing   struct{ *answering }
	noticing  struct{ *answering }
)

// Flush sends what was written.
func (f flushing) Flush() {
	f.send()
	f.ResponseWriter.(http.Flusher).Flush()
}

// Hijack gives the connection to the caller. No message goes out with what that one writes.
func (h hijacking) Hijack() (net.Conn, *bufio.ReadWriter, error) {
	connection, rest, err := h.ResponseWriter.(http.Hijacker).Hijack()
	h.isTaken = h.isTaken || err == nil
	return connection, rest, err
}

// Push pushes another response.
func (p pushing) Push(target string, options *http.PushOptions) error {
	return p.ResponseWriter.(http.Pusher).Push(target, options)
}

// CloseNotify tells that the connection has ended.
func (n noticing) CloseNotify() <-chan bool {
	return n.ResponseWriter.(http.CloseNotifier).CloseNotify()
}

// asGiven is the writer with what the one below has besides.
func (a *answering) asGiven() http.ResponseWriter {
	_, canFlush := a.ResponseWriter.(http.Flusher)
	_, canHijack := a.ResponseWriter.(http.Hijacker)
	_, canPush := a.ResponseWriter.(http.Pusher)
	_, canNotify := a.ResponseWriter.(http.CloseNotifier)
	f, h, p, n := flushing{a}, hijacking{a}, pushing{a}, noticing{a}
	type F = http.Flusher
	type H = http.Hijacker
	type P = http.Pusher
	type N = http.CloseNotifier
	switch [4]bool{canFlush, canHijack, canPush, canNotify} {
	case [4]bool{true, true, true, true}:
		return struct {
			*answering
			F
			H
			P
			N
		}{a, f, h, p, n}
	case [4]bool{true, true, true, false}:
		return struct {
			*answering
			F
			H
			P
		}{a, f, h, p}
	case [4]bool{true, true, false, true}:
		return struct {
			*answering
			F
			H
			N
		}{a, f, h, n}
	case [4]bool{true, true, false, false}:
		return struct {
			*answering
			F
			H
		}{a, f, h}
	case [4]bool{true, false, true, true}:
		return struct {
			*answering
			F
			P
			N
		}{a, f, p, n}
	case [4]bool{true, false, true, false}:
		return struct {
			*answering
			F
			P
		}{a, f, p}
	case [4]bool{true, false, false, true}:
		return struct {
			*answering
			F
			N
		}{a, f, n}
	case [4]bool{true, false, false, false}:
		return struct {
			*answering
			F
		}{a, f}
	case [4]bool{false, true, true, true}:
		return struct {
			*answering
			H
			P
			N
		}{a, h, p, n}
	case [4]bool{false, true, true, false}:
		return struct {
			*answering
			H
			P
		}{a, h, p}
	case [4]bool{false, true, false, true}:
		return struct {
			*answering
			H
			N
		}{a, h, n}
	case [4]bool{false, true, false, false}:
		return struct {
			*answering
			H
		}{a, h}
	case [4]bool{false, false, true, true}:
		return struct {
			*answering
			P
			N
		}{a, p, n}
	case [4]bool{false, false, true, false}:
		return struct {
			*answering
			P
		}{a, p}
	case [4]bool{false, false, false, true}:
		return struct {
			*answering
			N
		}{a, n}
	}
	return a
}

// Transport sends a message with each request, and receives the one that the response brings.
type Transport struct {
	// Inner does the rest. It is http.DefaultTransport if it is nil.
	Inner http.RoundTripper
}

// RoundTrip is what http.Client calls.
func (t Transport) RoundTrip(request *http.Request) (*http.Response, error) {
	inner := t.Inner
	if inner == nil {
		inner = http.DefaultTransport
	}
	if !isOn() {
		return inner.RoundTrip(request)
	}
	response, err := inner.RoundTrip(withMessage(request, inner, siteAbove()))
	if err == nil {
		receive(response.Header.Get(Header), strconv.Itoa(response.StatusCode))
		if response.Body != nil && response.StatusCode != http.StatusSwitchingProtocols {
			response.Body = &reader{ReadCloser: response.Body, response: response}
		}
	}
	return response, err
}

// withMessage is the request with a message, which the collector has before anything is written, but to a server of this process.
func withMessage(request *http.Request, inner http.RoundTripper, at *site) *http.Request {
	sent := tracing.send(own(numberNow()), tracing.outside(), inWords(request), at)
	ctx := request.Context()
	if _, tellsConnection := inner.(*http.Transport); tellsConnection {
		ctx = httptrace.WithClientTrace(ctx, &httptrace.ClientTrace{GotConn: func(got httptrace.GotConnInfo) {
			if !isServedHere(got.Conn) {
				tracing.has(sent)
			}
		}})
	} else if !tracing.has(sent) {
		return request
	}
	request = request.Clone(ctx)
	request.Header.Set(Header, sent.name)
	return request
}

var (
	// served has connections by both of their addresses, where Handler of this process has answered what this process has asked. One takes
	// the place of another.
	served     [cached]atomic.Pointer[string]
	servedSeed = maphash.MakeSeed()
)

func servedAt(connection string) *atomic.Pointer[string] {
	return &served[maphash.String(servedSeed, connection)%cached]
}

// servesHere notes the connection of a request of this process to itself.
func servesHere(request *http.Request) {
	if server, isTCP := request.Context().Value(http.LocalAddrContextKey).(*net.TCPAddr); isTCP {
		connection := request.RemoteAddr + " " + server.String()
		servedAt(connection).Store(&connection)
	}
}

// isServedHere tells whether the other end of a connection is this process, as far as that is known.
func isServedHere(asking net.Conn) bool {
	client, isTCP := asking.LocalAddr().(*net.TCPAddr)
	if !isTCP {
		return false
	}
	connection := client.String() + " " + asking.RemoteAddr().String()
	known := servedAt(connection).Load()
	return known != nil && *known == connection
}

// reader is the body of a response. Who has read all of it comes after what was done before its end.
type reader struct {
	io.ReadCloser
	response *http.Response
	isRead   bool
}

func (r *reader) Read(into []byte) (int, error) {
	count, err := r.ReadCloser.Read(into)
	if err == io.EOF && !r.isRead {
		r.isRead = true
		message := r.response.Trailer.Get(BodyHeader)
		if message == "" {
			message = r.response.Header.Get(BodyHeader)
		}
		receive(message, ofBody)
	}
	return count, err
}

// receive takes a message of a response, which carries this.
func receive(message, carried string) {
	if isOn() && isName(message) {
		tracing.incoming(own(numberNow()), message, "receive "+carried, siteAbove())
	}
}
