package itctrace

import (
	"context"
	"reflect"
)

// Case is one of those that Select chooses from.
type Case struct {
	// prepare gives the ways in which the case may be chosen, and what is done without a choice.
	prepare func(goroutine uint64, at *site) (ways []way, isNotChosen func())
	// otherwise is done if none of the others can be chosen at once.
	otherwise func()
}

// way is a case of the language, and what is done if it is chosen.
type way struct {
	of   reflect.SelectCase
	then func(received reflect.Value, isThere bool)
}

func sends(channel, value any, then func()) way {
	return way{
		reflect.SelectCase{Dir: reflect.SelectSend, Chan: reflect.ValueOf(channel), Send: reflect.ValueOf(value)},
		func(reflect.Value, bool) { then() },
	}
}

func receives(channel any, then func(received reflect.Value, isThere bool)) way {
	return way{reflect.SelectCase{Dir: reflect.SelectRecv, Chan: reflect.ValueOf(channel)}, then}
}

// OnReceive is the case of a message, or of the end of the channel.
func OnReceive[T any](channel *Chan[T], then func(value T, isThere bool)) Case {
	return Case{prepare: func(goroutine uint64, at *site) ([]way, func()) {
		return []way{receives(channel.channel(), func(received reflect.Value, isThere bool) {
			given, _ := received.Interface().(carried[T])
			then(channel.taken(given, isThere, goroutine, at))
		})}, func() {}
	}}
}

// OnSend is the case that this value can be sent.
func OnSend[T any](channel *Chan[T], value T, then func()) Case {
	return Case{prepare: func(goroutine uint64, at *site) ([]way, func()) {
		given := channel.offered(value, goroutine, at)
		return []way{
			sends(channel.handed(), given, func() {
				takeAlone(goroutine, <-given.receipt, at)
				then()
			}),
			receives(channel.roomOf(), func(received reflect.Value, _ bool) {
				made, _ := received.Interface().(*token)
				channel.put(value, made, goroutine, at)
				then()
			}),
			receives(channel.endedOf(), func(reflect.Value, bool) { channel.seenClosed() }),
		}, func() { dropped(given.token) }
	}}
}

// OnDone is the case that the context is done.
func OnDone(ctx context.Context, then func(reason error)) Case {
	return Case{prepare: func(goroutine uint64, at *site) ([]way, func()) {
		return []way{receives(ctx.Done(), func(reflect.Value, bool) { then(seeDone(ctx, goroutine, at)) })}, func() {}
	}}
}

// OnPlain is the case of a value from a channel of the language, as that of a timer, which gives no order.
func OnPlain[T any](channel <-chan T, then func(value T, isThere bool)) Case {
	return Case{prepare: func(uint64, *site) ([]way, func()) {
		return []way{receives(channel, func(received reflect.Value, isThere bool) {
			value, _ := received.Interface().(T)
			then(value, isThere)
		})}, func() {}
	}}
}

// OnDefault is the case that none of the others can be chosen at once.
func OnDefault(then func()) Case { return Case{otherwise: then} }

// Select waits until one of the cases can be chosen, as select of the language does, and does what that says.
//
//go:noinline
func Select(cases ...Case) {
	goroutine, counter := here()
	at := siteIfOn(counter)
	var all []reflect.SelectCase
	var then []func(reflect.Value, bool)
	var of []int // Which case each way is of.
	isNotChosen := make([]func(), len(cases))
	for place, one := range cases {
		if one.prepare == nil {
			otherwise := one.otherwise
			all = append(all, reflect.SelectCase{Dir: reflect.SelectDefault})
			then, of = append(then, func(reflect.Value, bool) { otherwise() }), append(of, place)
			continue
		}
		var ways []way
		ways, isNotChosen[place] = one.prepare(goroutine, at)
		for _, way := range ways {
			all, then, of = append(all, way.of), append(then, way.then), append(of, place)
		}
	}
	chosen, received, isThere := reflect.Select(all)
	for place, undo := range isNotChosen {
		if undo != nil && place != of[chosen] {
			undo()
		}
	}
	then[chosen](received, isThere)
}
