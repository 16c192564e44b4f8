package main

import (
	"fmt"
	"math"
	"regexp"
	"strconv"
	"strings"
)

// robots are the rules of a robots.txt for an agent, after RFC 9309.
type robots struct {
	rules []rule
	delay float64 // seconds between two requests; infinite if it is not a number
}

// A rule is a line "allow: PATTERN" or "disallow: PATTERN".
type rule struct {
	pattern string
	allows  bool
}

// A group is some agents, and the lines that apply to them.
type group struct {
	agents []string
	lines  [][2]string
}

var (
	robotsLine    = regexp.MustCompile(`^\s*([A-Za-z-]+)\s*:\s*([^#]*)`)
	lineEnd       = regexp.MustCompile(`\r\n?|\n`)
	percentEscape = regexp.MustCompile(`%[0-9A-Fa-f]{2}`)
)

func parseRobots(text, agent string) *robots {
	if end := strings.IndexAny(agent, " /"); end >= 0 {
		agent = agent[:end]
	}
	r := new(robots)
	for _, g := range groupsFor(strings.ToLower(agent), groupsOf(text)) {
		for _, line := range g.lines {
			switch key, value := line[0], line[1]; {
			case value == "":
			case key == "crawl-delay":
				r.delay = secondsOf(value)
			default:
				r.rules = append(r.rules, rule{escaped(value), key == "allow"})
			}
		}
	}
	return r
}

func groupsOf(text string) []*group {
	var groups []*group
	isInAgents := false
	for _, line := range lineEnd.Split(strings.TrimPrefix(text, "\ufeff"), -1) {
		match := robotsLine.FindStringSubmatch(line)
		if match == nil {
			continue
		}
		key, value := strings.ToLower(match[1]), strings.TrimSpace(match[2])
		switch key {
		case "user-agent":
			if !isInAgents {
				groups = append(groups, new(group))
			}
			name, _, _ := strings.Cut(value, "/")
			last := groups[len(groups)-1]
			last.agents = append(last.agents, strings.ToLower(name))
			isInAgents = true
		case "allow", "disallow", "crawl-delay":
			if len(groups) > 0 {
				last := groups[len(groups)-1]
				last.lines = append(last.lines, [2]string{key, value})
			}
			isInAgents = false
		}
	}
	return groups
}

// groupsFor returns the groups that name the agent; or if there are none, those of all agents.
func groupsFor(agent string, groups []*group) []*group {
	for _, name := range []string{agent, "*"} {
		var found []*group
		for _, g := range groups {
			for _, one := range g.agents {
				if one == name {
					found = append(found, g)
					break
				}
			}
		}
		if found != nil {
			return found
		}
	}
	return nil
}

func secondsOf(text string) float64 {
	seconds, err := strconv.ParseFloat(text, 64)
	if err != nil || math.IsNaN(seconds) {
		return math.Inf(1)
	}
	return seconds
}

// allows says whether a path with its query may be requested. The longest pattern that matches
// decides, and if there are two, the one that allows.
func (r *robots) allows(target string) bool {
	target = escaped(target)
	longest, allows := -1, true
	for _, one := range r.rules {
		size := len(one.pattern)
		if size < longest || size == longest && !one.allows {
			continue
		}
		if matches(one.pattern, target) {
			longest, allows = size, one.allows
		}
	}
	return allows
}

// escaped writes all escapes of a text in one form, so that texts can be compared.
func escaped(text string) string {
	var out strings.Builder
	for i := 0; i < len(text); i++ {
		if b := text[i]; '!' <= b && b <= '~' {
			out.WriteByte(b)
		} else {
			fmt.Fprintf(&out, "%%%02X", b)
		}
	}
	return percentEscape.ReplaceAllStringFunc(out.String(), strings.ToUpper)
}

// matches says whether a pattern with * and a $ at the end matches a path.
func matches(pattern, path string) bool {
	isWhole := strings.HasSuffix(pattern, "$")
	pieces := strings.Split(strings.TrimSuffix(pattern, "$"), "*")
	if !strings.HasPrefix(path, pieces[0]) {
		return false
	}
	path = path[len(pieces[0]):]
	pieces = pieces[1:]
	last := ""
	if isWhole && len(pieces) > 0 {
		last = pieces[len(pieces)-1]
		pieces = pieces[:len(pieces)-1]
	} else if isWhole {
		return path == ""
	}
	for _, piece := range pieces {
		_, rest, ok := strings.Cut(path, piece)
		if !ok {
			return false
		}
		path = rest
	}
	return strings.HasSuffix(path, last)
}
