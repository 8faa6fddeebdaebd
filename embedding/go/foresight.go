// Package foresight has sessions that live, over the library for C. Build it with CGO_CFLAGS=-I and
// the whole path of the headers' folder, and with CGO_LDFLAGS naming libforesight.a by its whole path,
// or with what pkg-config says of an installed foresight.pc.
package foresight

/*
#include "foresight_session.h"
*/
import "C"

import (
	"errors"
	"fmt"
	"runtime"
	"strings"
	"sync"
	"unsafe"
)

const (
	messageRoom = 256
	repliesRoom = 65536
)

// ErrMemory says that memory ran out.
var ErrMemory = errors.New("foresight: no memory")

// What a status means that comes without a message.
var statuses = map[int]string{
	11: "the session is closed",
	12: "no number is left for a request",
	15: "too many names",
	16: "the text isn't UTF-8",
	20: "a ticket is in the way",
	22: "no such table",
}

// Refused says why a file isn't opened, or a line isn't served. Where a file is refused, Explanation
// tells in plain words where and why, with advice; else it is empty.
type Refused struct {
	Status      int
	Why         string
	Explanation string
}

func (r *Refused) Error() string { return fmt.Sprintf("foresight: %s", r.Why) }

// Session is handlers that are read once, and tables that stay. Any number of goroutines may use it:
// requests are served in the order in which these hold its lock.
type Session struct {
	mu     sync.Mutex
	handle C.struct_foresight_session
	out    []byte
}

func at(b []byte) *C.uint8_t {
	if len(b) == 0 {
		b = make([]byte, 1)
	}
	return (*C.uint8_t)(unsafe.Pointer(&b[0]))
}

func failed(status C.uint8_t, why []byte) error {
	if status == 3 {
		return ErrMemory
	}
	text := strings.TrimSpace(string(why))
	if text == "" {
		text = fmt.Sprintf("status %d: %s", status, statuses[int(status)])
	}
	return &Refused{Status: int(status), Why: text}
}

// Explain tells of a refusal what `foresight_where` does: of the line that was said of a text, which
// goes by this name; as JSON, if that is asked for. It is empty if the line is no refusal's, or names
// a place that the text doesn't have.
func Explain(text []byte, refusal, name string, json bool) (string, error) {
	form := C.uint8_t(C.FORESIGHT_FORM_TEXT)
	if json {
		form = C.FORESIGHT_FORM_JSON
	}
	line, file := []byte(refusal), []byte(name)
	answer := C.struct_foresight_answer{needed: 4096}
	for {
		out := make([]byte, answer.needed)
		status := C.foresight_explain(at(text), C.size_t(len(text)), at(file), C.size_t(len(file)),
			at(line), C.size_t(len(line)), form, at(out), C.size_t(len(out)), &answer)
		switch status {
		case 0:
			return string(out[:answer.written]), nil
		case C.FORESIGHT_UNEXPLAINED:
			return "", nil
		case 5:
		default:
			return "", failed(status, nil)
		}
	}
}

// Open opens a session over a session file without requests, with a seed that nobody who sends
// requests knows, and at most so many names.
func Open(text []byte, seed uint64, mostNames uint32) (*Session, error) {
	s := &Session{out: make([]byte, repliesRoom)}
	why := make([]byte, messageRoom)
	var answer C.struct_foresight_answer
	status := C.foresight_session_open(&s.handle, at(text), C.size_t(len(text)), C.uint64_t(seed),
		C.uint32_t(mostNames), at(why), messageRoom, &answer)
	if status != 0 {
		err := failed(status, why[:answer.told])
		if refused, is := err.(*Refused); is {
			refused.Explanation, _ = Explain(text, refused.Why, "text", false)
		}
		return nil, err
	}
	runtime.SetFinalizer(s, (*Session).Close)
	return s, nil
}

// Serve serves requests, many at a time, and returns their reply lines. If one isn't served, those
// before it are, and the error says why.
func (s *Session) Serve(lines []string) ([]string, error) {
	for _, line := range lines {
		if strings.Contains(line, "\n") {
			return nil, &Refused{Status: 1, Why: "more than one line"}
		}
	}
	text := []byte(strings.Join(append(append([]string{}, lines...), ""), "\n"))
	why := make([]byte, messageRoom)
	var served C.struct_foresight_served
	var replies strings.Builder
	s.mu.Lock()
	defer s.mu.Unlock()
	for {
		status := C.foresight_session_serve(&s.handle, at(text), C.size_t(len(text)), at(s.out),
			repliesRoom, at(why), messageRoom, &served)
		replies.Write(s.out[:served.written])
		text = text[served.used:]
		if status == 5 {
			continue
		}
		answered := strings.Split(replies.String(), "\n")
		answered = answered[:len(answered)-1]
		if status != 0 {
			return answered, failed(status, why[:served.told])
		}
		return answered, nil
	}
}

// Request serves one request, and returns the words of its reply.
func (s *Session) Request(line string) ([]string, error) {
	replies, err := s.Serve([]string{line})
	if err != nil || len(replies) == 0 {
		return nil, err
	}
	return strings.Fields(replies[0]), nil
}

// Tables returns the tables, as `foresight dump` writes them.
func (s *Session) Tables() (string, error) {
	why := make([]byte, messageRoom)
	answer := C.struct_foresight_answer{needed: repliesRoom}
	s.mu.Lock()
	defer s.mu.Unlock()
	for {
		out := make([]byte, answer.needed)
		status := C.foresight_session_dump(&s.handle, at(out), C.size_t(len(out)), at(why),
			messageRoom, &answer)
		if status == 0 {
			return string(out[:answer.written]), nil
		}
		if status != 5 {
			return "", failed(status, why[:answer.told])
		}
	}
}

// Counts is what a session holds.
type Counts struct {
	// Names of handlers, tables, variables and symbols together, and how many there may be.
	Names, MostNames uint32
	Tables           int
	// Tickets that have begun: each request that was served is one.
	Begun uint64
	// How often the names were renewed.
	Generation uint64
}

// Counts returns what the session holds.
func (s *Session) Counts() (Counts, error) {
	var counts C.struct_foresight_counts
	s.mu.Lock()
	defer s.mu.Unlock()
	if status := C.foresight_session_counts(&s.handle, &counts); status != 0 {
		return Counts{}, failed(status, nil)
	}
	return Counts{uint32(counts.names), uint32(counts.most_names), int(counts.tables),
		uint64(counts.begun), uint64(counts.generation)}, nil
}

// Renew lets the names go that neither the handlers nor a table holds.
func (s *Session) Renew() error {
	s.mu.Lock()
	defer s.mu.Unlock()
	if status := C.foresight_session_renew(&s.handle); status != 0 {
		return failed(status, nil)
	}
	return nil
}

// Size returns how many entries the table of this number has.
func (s *Session) Size(table uint32) (uint32, error) {
	var size C.uint32_t
	s.mu.Lock()
	defer s.mu.Unlock()
	if status := C.foresight_session_size(&s.handle, C.uint32_t(table), &size); status != 0 {
		return 0, failed(status, nil)
	}
	return uint32(size), nil
}

// Close gives the memory back. Later calls are refused.
func (s *Session) Close() {
	s.mu.Lock()
	defer s.mu.Unlock()
	C.foresight_session_close(&s.handle)
}
