package main

/*
#include "polorowan.h"
*/
import "C"

import (
	"bufio"
	"bytes"
	"encoding/hex"
	"fmt"
	"io"
	"os"
	"strings"
)

// The longest line of a script.
const line = 131200

// readLinks reads the output of tools/link_lines.py.
func readLinks(from io.Reader) ([]Link, error) {
	var links []Link
	for lines := bufio.NewScanner(from); lines.Scan(); {
		var link Link
		var part C.struct_polorowan_range
		var size, mode string
		if _, err := fmt.Sscanf(lines.Text(), "range %d %d %s", &part.first, &part.last, &mode); err == nil {
			if len(links) == 0 || links[len(links)-1].range_count == C.POLOROWAN_RANGES {
				return nil, fmt.Errorf("no link for a range: %q", lines.Text())
			}
			last := &links[len(links)-1]
			part.optimistic = mode == "O"
			last.ranges[last.range_count] = part
			last.range_count++
			continue
		}
		if _, err := fmt.Sscanf(lines.Text(), "link %d %s %d %s %d %d %d %d %d %d %d", &link.link, &size, &link.max_cid, &mode,
			&link.k1, &link.n1, &link.k2, &link.n2, &link.packet_ms, &link.static_nack_ms, &link.idle_ms); err != nil {
			return nil, fmt.Errorf("%q: %w", lines.Text(), err)
		}
		link.large, link.optimistic = size == "large", mode == "O"
		links = append(links, link)
	}
	return links, nil
}

// digits are octets as answer lines have them.
func digits(octets []byte) string {
	if len(octets) == 0 {
		return "-"
	}
	return hex.EncodeToString(octets)
}

// arrive takes a packet, and writes its answer lines.
func arrive(to io.Writer, gateway *Gateway, link uint16, moment uint64, octets []byte) error {
	answer, err := gateway.Arrive(link, moment, octets)
	if err != nil {
		return err
	}
	cid := "-"
	if answer.Kind == C.POLOROWAN_CONTEXT {
		cid = fmt.Sprint(answer.CID)
	}
	for _, element := range answer.Relayed {
		fmt.Fprintf(to, "%d - relay %s\n", link, digits(element))
	}
	if answer.Packet != nil {
		fmt.Fprintf(to, "%d %s ip %s\n", link, cid, digits(answer.Packet))
	}
	if answer.Outcome == C.POLOROWAN_STORED {
		fmt.Fprintf(to, "%d %s stored\n", link, cid)
	}
	if answer.Feedback != nil {
		fmt.Fprintf(to, "%d %s feedback %s\n", link, cid, digits(answer.Feedback))
	}
	if name := RefusalName(answer.Outcome); name != "" {
		fmt.Fprintf(to, "%d %s refused %s\n", link, cid, name)
	}
	return nil
}

// run runs a line of a script, and writes its answer lines. A good line is exactly the one that its event is written as.
func run(to io.Writer, gateway *Gateway, text string) error {
	var link uint16
	var moment uint64
	var octets string
	if _, err := fmt.Sscanf(text, "arrive %d %d %s", &link, &moment, &octets); err == nil {
		packet, err := hex.DecodeString(strings.TrimPrefix(octets, "-"))
		if err == nil && len(packet) <= longest && text == fmt.Sprintf("arrive %d %d %s", link, moment, digits(packet)) {
			return arrive(to, gateway, link, moment, packet)
		}
	}
	if _, err := fmt.Sscanf(text, "reset %d", &link); err == nil && text == fmt.Sprintf("reset %d", link) {
		if !gateway.Reset(link) {
			fmt.Fprintf(to, "%d - refused %s\n", link, RefusalName(C.POLOROWAN_REFUSED_NO_LINK))
		}
		return nil
	}
	fmt.Fprintln(to, "- - refused BadLine")
	return nil
}

// lineOf is what bufio.ScanLines is, without dropping a carriage return.
func lineOf(octets []byte, atEnd bool) (int, []byte, error) {
	if place := bytes.IndexByte(octets, '\n'); place >= 0 {
		return place + 1, octets[:place], nil
	}
	if atEnd && len(octets) > 0 {
		return len(octets), octets, nil
	}
	return 0, nil, nil
}

// answer answers a script.
func answer(to io.Writer, from io.Reader, gateway *Gateway) error {
	lines := bufio.NewScanner(from)
	lines.Buffer(make([]byte, line+1), line+1)
	lines.Split(lineOf)
	for lines.Scan() {
		if err := run(to, gateway, lines.Text()); err != nil {
			return err
		}
	}
	return lines.Err()
}

func replay(path string) error {
	file, err := os.Open(path)
	if err != nil {
		return err
	}
	defer file.Close()
	links, err := readLinks(file)
	if err != nil {
		return err
	}
	gateway, err := Open(links)
	if err != nil {
		return err
	}
	defer gateway.Close()
	to := bufio.NewWriter(os.Stdout)
	if err := answer(to, os.Stdin, gateway); err != nil {
		return err
	}
	return to.Flush()
}

func main() {
	if len(os.Args) != 2 {
		fmt.Fprintln(os.Stderr, "usage: gateway LINKS < SCRIPT")
		os.Exit(2)
	}
	if err := replay(os.Args[1]); err != nil {
		fmt.Fprintf(os.Stderr, "gateway: %v\n", err)
		os.Exit(1)
	}
}
