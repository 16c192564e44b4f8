package main

import (
	"context"
	"net/url"
	"time"

	"mercator.example/frontier"
)

const (
	day            = 86_400 // seconds
	robotsBytes    = 500_000
	robotsAttempts = 3
	robotsHops     = 5
)

// A visitor fetches the URLs of one queue.
type visitor struct {
	*settings
	frontier *frontier.Frontier
	queue    int
	sites    map[string]*site
	next     map[string]time.Time // by host, on any port: when it may be requested from again
	search   *search
}

// A site is a scheme, host and port.
type site struct {
	refusal string // the status of its URLs if none may be fetched, or ""
	robots  *robots
	delay   time.Duration
}

func newVisitor(settings *settings, f *frontier.Frontier, queue int) *visitor {
	v := &visitor{settings: settings, frontier: f, queue: queue}
	v.sites, v.next = make(map[string]*site), make(map[string]time.Time)
	v.search = v.newSearch()
	return v
}

// isReady says whether a URL may be fetched now. If not, it has to be put back, so that other hosts
// of the queue are visited. If all of them have to wait, so does this call.
func (v *visitor) isReady(ctx context.Context, link string) bool {
	at := v.readyAt(ctx, link)
	if time.Now().Before(at) && v.search.isOver(link) {
		v.search.add(link, at)
		v.search.wait(ctx)
		v.search = v.newSearch()
	}
	if time.Now().Before(at) {
		v.search.add(link, at)
		return false
	}
	v.search = v.newSearch()
	return true
}

// readyAt returns when a URL may be fetched. If its site is new, it requests the robots.txt.
func (v *visitor) readyAt(ctx context.Context, link string) time.Time {
	if _, refusal := v.siteOf(ctx, link); refusal != "" {
		return time.Time{}
	}
	return v.next[hostOf(link)]
}

// visit fetches a URL, if its site allows it.
func (v *visitor) visit(ctx context.Context, link string) reply {
	s, refusal := v.siteOf(ctx, link)
	if refusal != "" {
		return reply{status: refusal}
	}
	return v.get(ctx, hostOf(link), s.delay, link, v.largest, false)
}

// siteOf returns the site of a URL, and the status of the URL if it must not be fetched.
func (v *visitor) siteOf(ctx context.Context, link string) (s *site, refusal string) {
	scheme, host, target := split(link)
	name := scheme + "://" + host
	if v.sites[name] == nil {
		v.sites[name] = v.newSite(ctx, name)
	}
	s = v.sites[name]
	if s.refusal == "" && !s.robots.allows(target) {
		return s, "robots"
	}
	return s, s.refusal
}

// newSite reads the robots.txt of a site.
func (v *visitor) newSite(ctx context.Context, name string) *site {
	text, refusal := v.fetchRobots(ctx, name)
	for attempt := 1; refusal != "" && attempt < robotsAttempts && ctx.Err() == nil; attempt++ {
		text, refusal = v.fetchRobots(ctx, name)
	}
	robots := parseRobots(text, v.agent)
	if robots.delay > day {
		return &site{refusal: "robots"}
	}
	delay := time.Duration(robots.delay * float64(time.Second))
	if delay < v.delay {
		delay = v.delay
	}
	return &site{refusal, robots, delay}
}

// fetchRobots fetches a robots.txt, and follows its redirects. If it cannot be read, it returns the
// status of the URLs of this site.
func (v *visitor) fetchRobots(ctx context.Context, name string) (text, refusal string) {
	link := name + "/robots.txt"
	host := hostOf(link)
	for hop := 0; hop <= robotsHops; hop++ {
		r := v.get(ctx, host, v.delay, link, robotsBytes, true)
		switch {
		case r.status == "failed" && hop == 0:
			return "", "failed"
		case r.status == "failed" || r.status >= "500":
			return "", "no-robots"
		case r.target == "":
			return r.text, ""
		}
		link = joined(link, r.target)
	}
	return "", "no-robots"
}

// get fetches a URL after the delay since the last request to the host. The delay is that of the
// host even if a redirect of its robots.txt leads to another one.
func (v *visitor) get(
	ctx context.Context, host string, delay time.Duration, link string, largest int64, isRobots bool,
) reply {
	select {
	case <-time.After(time.Until(v.next[host])):
	case <-ctx.Done():
	}
	defer func() { v.next[host] = time.Now().Add(delay) }()
	return get(ctx, link, v.agent, largest, isRobots)
}

// hostOf returns the host of a URL, without its port.
func hostOf(link string) string {
	_, host, _ := split(link)
	return (&url.URL{Host: host}).Hostname()
}
