package main

import (
	"context"
	"time"
)

// A search ends after this many URLs in a row of hosts that it has met.
const oldHosts = 8

// A search is a visitor's search for a URL whose host need not wait. The other URLs are put back.
type search struct {
	urls    map[string]bool
	hosts   map[string]time.Time // when each host may be visited
	old     int
	arrival <-chan struct{} // closed when a URL is accepted into the queue
}

func (v *visitor) newSearch() *search {
	return &search{
		urls:    make(map[string]bool),
		hosts:   make(map[string]time.Time),
		arrival: v.frontier.Arrival(v.queue),
	}
}

// isOver says whether to wait with this URL: it was put back before, or no new hosts are found.
func (s *search) isOver(link string) bool {
	return s.urls[link] || s.old == oldHosts
}

func (s *search) add(link string, at time.Time) {
	host := hostOf(link)
	if _, isOld := s.hosts[host]; isOld {
		s.old++
	} else {
		s.old = 0
	}
	s.hosts[host] = at
	s.urls[link] = true
}

// wait waits until a host need not wait any more, or a URL is accepted into the queue.
func (s *search) wait(ctx context.Context) {
	var first time.Time
	for _, at := range s.hosts {
		if first.IsZero() || at.Before(first) {
			first = at
		}
	}
	select {
	case <-time.After(time.Until(first)):
	case <-s.arrival:
	case <-ctx.Done():
	}
}
