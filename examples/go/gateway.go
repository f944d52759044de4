// The library in Go, by cgo: a gateway with its links, packets in, answers out. It is an example, and no binding.
package main

/*
#cgo pkg-config: polorowan
#include "polorowan.h"
*/
import "C"

import (
	"fmt"
	"unsafe"
)

// The greatest length of a packet.
const longest = 65535

// Link is what the library knows of a link: its settings.
type Link = C.struct_polorowan_link

// Gateway has all links with their contexts, and the buffers of an answer. One goroutine uses it at a time.
type Gateway struct {
	at                        *C.polorowan_gateway
	packet, feedback, relayed []byte
}

// Answer is the answer to a packet. Its octets stand until the next call. What it doesn't have is nil.
type Answer struct {
	Kind, Outcome    uint8
	CID              uint16
	Packet, Feedback []byte
	Relayed          [][]byte
}

// first is the address of the first octet, as C takes it. No octets have none.
func first(octets []byte) *C.uint8_t {
	if len(octets) == 0 {
		return nil
	}
	return (*C.uint8_t)(unsafe.Pointer(&octets[0]))
}

// Open makes a gateway with these links.
func Open(links []Link) (*Gateway, error) {
	gateway := &Gateway{
		packet:   make([]byte, longest+C.POLOROWAN_HEAD_ROOM),
		feedback: make([]byte, C.POLOROWAN_FEEDBACK_ROOM),
		relayed:  make([]byte, longest),
	}
	var place C.size_t
	var at *C.polorowan_gateway
	var start *Link
	if len(links) > 0 {
		start = &links[0]
	}
	if fault := C.polorowan_open(start, C.size_t(len(links)), &place, &at); fault != C.POLOROWAN_MADE {
		return nil, fmt.Errorf("fault %d at link %d", fault, place)
	}
	gateway.at = at
	return gateway, nil
}

// Close frees the gateway.
func (gateway *Gateway) Close() {
	C.polorowan_close(gateway.at)
	gateway.at = nil
}

// Arrive takes a packet of a link at a moment, in milliseconds.
func (gateway *Gateway) Arrive(link uint16, moment uint64, octets []byte) (Answer, error) {
	var told C.struct_polorowan_arrival
	status := C.polorowan_arrive(gateway.at, C.uint16_t(link), C.uint64_t(moment), first(octets), C.size_t(len(octets)),
		first(gateway.packet), C.size_t(len(gateway.packet)), first(gateway.feedback), C.size_t(len(gateway.feedback)),
		first(gateway.relayed), C.size_t(len(gateway.relayed)), &told)
	if status != C.POLOROWAN_ARRIVED {
		return Answer{}, fmt.Errorf("status %d", status)
	}
	answer := Answer{Kind: uint8(told.kind), Outcome: uint8(told.outcome), CID: uint16(told.cid)}
	if told.has_packet {
		answer.Packet = gateway.packet[:told.packet_length]
	}
	if told.has_feedback {
		answer.Feedback = gateway.feedback[:told.feedback_length]
	}
	for left := gateway.relayed[:told.relayed_length]; len(left) > 0; left = left[1+left[0]:] {
		answer.Relayed = append(answer.Relayed, left[1:1+left[0]])
	}
	return answer, nil
}

// Reset forgets the contexts of a link. False if there is no such link.
func (gateway *Gateway) Reset(link uint16) bool {
	return C.polorowan_reset(gateway.at, C.uint16_t(link)) == C.POLOROWAN_FORGOT
}

// RefusalName is the name of a refusal's number.
func RefusalName(number uint8) string {
	name := make([]byte, C.POLOROWAN_NAME_ROOM)
	length := C.polorowan_refusal_name(C.uint8_t(number), first(name), C.size_t(len(name)))
	return string(name[:length])
}
