package main

import (
	"math"
	"strings"
	"testing"
)

func TestRobots(t *testing.T) {
	text := strings.Join([]string{
		"\ufeff# a comment", "User-Agent: one", "user-agent: Two # both", "Disallow: /", "", "allow: /$",
		"Allow: /p*/q$", "Allow: /é", "Crawl-delay: 3", "Sitemap: x", "User-agent: *", "Disallow:",
	}, "\r\n")
	r := parseRobots(text, "TWO/1.0 (x)")
	if r.delay != 3 {
		t.Errorf("delay %v", r.delay)
	}
	for _, path := range []string{"/", "/p/q", "/p/x/q", "/%C3%A9t%c3%a9", "/%c3%a9"} {
		if !r.allows(path) {
			t.Errorf("%s is forbidden", path)
		}
	}
	for _, path := range []string{"/x", "/p/q/", "/p/q?r", "/e"} {
		if r.allows(path) {
			t.Errorf("%s is allowed", path)
		}
	}
	for _, one := range []struct {
		text, path string
		allows     bool
	}{
		{"User-agent: *\nDisallow:", "/", true},
		{"User-agent: *\nDisallow: /a\nDisallow: *.pdf$", "/b.pdf", false},
		{"User-agent: *\nDisallow: /a*b*b", "/a-b", true},
		{"User-agent: *\nDisallow: /a*b*b", "/a-b-bc", false},
		{"User-agent: *\nDisallow: /a*ab$", "/ab", true},
		{"User-agent: *\nDisallow: /a\nAllow: /a", "/a", true},
		{"Disallow: /", "/", true},
		{"", "/", true},
	} {
		if parseRobots(one.text, "x").allows(one.path) != one.allows {
			t.Errorf("%q, %s: not %v", one.text, one.path, one.allows)
		}
	}
	for text, delay := range map[string]float64{
		"": 0, "0.5": 0.5, "-1": -1, "²": math.Inf(1), "nan": math.Inf(1), "1" + strings.Repeat("0", 400): math.Inf(1),
	} {
		if got := parseRobots("User-agent: *\nCrawl-delay: "+text, "x").delay; got != delay {
			t.Errorf("Crawl-delay: %s: %v", text, got)
		}
	}
	// Patterns that would take hours if each * were tried at each position.
	slow := parseRobots("User-agent: *\nDisallow: "+strings.Repeat("/*a", 500)+"$", "x")
	if !slow.allows("/" + strings.Repeat("a/", 1000) + "b") {
		t.Error("a long pattern")
	}
}
