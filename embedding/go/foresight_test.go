package foresight

import (
	"errors"
	"fmt"
	"os"
	"strings"
	"sync"
	"testing"
)

// The files that embedding/live.sh made: handlers, requests, and what the program answers.
func file(t *testing.T, name string) string {
	text, err := os.ReadFile(os.Getenv("FORESIGHT_CASE") + "/" + name)
	if err != nil {
		t.Skip("no case: embedding/live.sh makes it")
	}
	return string(text)
}

func TestServesAsTheProgram(t *testing.T) {
	s, err := Open([]byte(file(t, "handlers")), 7, 1000)
	if err != nil {
		t.Fatal(err)
	}
	defer s.Close()
	lines := strings.Split(strings.TrimSuffix(file(t, "requests"), "\n"), "\n")
	replies, err := s.Serve(lines)
	if err != nil || strings.Join(replies, "\n")+"\n" != file(t, "replies") {
		t.Fatal("other replies", err)
	}
	if tables, err := s.Tables(); err != nil || tables != file(t, "tables") {
		t.Fatal("other tables", err)
	}
}

func TestRefuses(t *testing.T) {
	var refused *Refused
	if _, err := Open([]byte("map ;\n%%\n"), 7, 10); !errors.As(err, &refused) ||
		refused.Why != "refused S2 at 4" {
		t.Fatal(err)
	}
	if !strings.HasPrefix(refused.Explanation, "text:1:5: ") {
		t.Fatal(refused.Explanation)
	}
	if told, err := Explain([]byte("map ;\n%%\n"), "unknown handler", "bank", true); err != nil || told != "" {
		t.Fatal(told, err)
	}
	s, err := Open([]byte("map m; handler f(k) { let a = get(m, k); put(m, k, 1); reply a; }\n%%\n"), 7, 6)
	if err != nil {
		t.Fatal(err)
	}
	for line, why := range map[string]string{"g": "unknown handler", "f": "wrong number of arguments",
		"f !": "a word that is no value", "f \xff": "not text", "f\nf": "more than one line"} {
		replies, err := s.Serve([]string{"f a", line, "f b"})
		if !errors.As(err, &refused) || refused.Why != why {
			t.Fatal(line, err)
		}
		if refused.Status == 1 && why != "more than one line" && len(replies) != 1 {
			t.Fatal(line, replies)
		}
	}
	var group sync.WaitGroup
	for i := 0; i < 8; i++ {
		group.Add(1)
		go func(i int) {
			defer group.Done()
			for j := 0; j < 1000; j++ {
				if _, err := s.Request(fmt.Sprintf("f %d", i*1000+j)); err != nil {
					t.Error(err)
					return
				}
			}
		}(i)
	}
	group.Wait()
	if tables, err := s.Tables(); err != nil || strings.Count(tables, "\n") != 8002 {
		t.Fatal("other tables of eight goroutines", err)
	}
	counts, err := s.Counts()
	if err != nil || counts.Names != 4 || counts.MostNames != 6 || counts.Tables != 1 || counts.Begun < 8000 {
		t.Fatal(counts, err)
	}
	if err := s.Renew(); err != nil {
		t.Fatal(err)
	}
	if counts, err := s.Counts(); err != nil || counts.Generation != 1 {
		t.Fatal(counts, err)
	}
	if size, err := s.Size(0); err != nil || size != 8001 {
		t.Fatal(size, err)
	}
	if _, err := s.Size(1); !errors.As(err, &refused) || refused.Status != 22 {
		t.Fatal(err)
	}
	s.Close()
	if _, err := s.Request("f a"); !errors.As(err, &refused) || refused.Status != 11 ||
		refused.Why != "status 11: the session is closed" {
		t.Fatal(err)
	}
}
