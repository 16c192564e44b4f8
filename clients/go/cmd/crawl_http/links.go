package main

import (
	"html"
	"net/url"
	"regexp"
	"strings"
)

// linkAttributes has the attribute with the link, by element.
var linkAttributes = map[string]string{
	"a": "href", "area": "href", "frame": "src", "iframe": "src", "img": "src", "link": "href",
	"script": "src",
}

// rawElements are the elements whose content has no tags.
var rawElements = map[string]bool{
	"iframe": true, "noembed": true, "noframes": true, "script": true, "style": true,
	"textarea": true, "title": true, "xmp": true,
}

// A reference without a semicolon is left as it is: most of them are parts of queries.
var reference = regexp.MustCompile(`&#?[0-9A-Za-z]+;`)

// linksOf returns the texts of the links on a page, and the base that they are resolved against.
func linksOf(page, text string) (base string, texts []string) {
	base = page
	hasBase := false
	for s := (scanner{text: text}); s.next(); {
		if link, ok := s.attributes[linkAttributes[s.name]]; ok {
			texts = append(texts, link)
		}
		if href, ok := s.attributes["href"]; ok && s.name == "base" && !hasBase {
			base, hasBase = joined(page, href), true
		}
	}
	return base, texts
}

// joined resolves a link against the URL of a page. If the link is not a URL, it returns that of
// the page.
func joined(page, link string) string {
	if base, err := url.Parse(page); err == nil {
		if target, err := base.Parse(strings.TrimSpace(link)); err == nil {
			return target.String()
		}
	}
	return page
}

// A scanner finds the start tags of a page. It reads no text twice, so that a page cannot make it
// slow.
type scanner struct {
	text       string // what is left of the page
	name       string
	attributes map[string]string
}

const space = " \t\n\f\r"

// next moves to the next start tag, and says whether there is one that is complete.
func (s *scanner) next() bool {
	if rawElements[s.name] && !s.skipRaw() {
		return false
	}
	for {
		at := strings.IndexByte(s.text, '<')
		if at < 0 || at+1 == len(s.text) {
			return false
		}
		s.text = s.text[at+1:]
		end := ""
		switch first := s.text[0]; {
		case 'a' <= first|0x20 && first|0x20 <= 'z':
			s.name = strings.ToLower(s.until(space + "/>"))
			return s.readAttributes()
		case strings.HasPrefix(s.text, "!--"):
			end = "-->"
			s.text = s.text[1:] // also <!--> is a comment
		case first == '/' || first == '!' || first == '?':
			end = ">"
		}
		_, rest, isEnded := strings.Cut(s.text, end)
		if !isEnded {
			return false
		}
		s.text = rest
	}
}

// skipRaw moves to the end tag of the element.
func (s *scanner) skipRaw() bool {
	for {
		_, rest, ok := strings.Cut(s.text, "</")
		if !ok {
			return false
		}
		s.text = rest
		size := len(s.name)
		if size < len(rest) && strings.EqualFold(rest[:size], s.name) &&
			strings.IndexByte(space+"/>", rest[size]) >= 0 {
			return true
		}
	}
}

// readAttributes reads the attributes of a tag, and says whether the tag ends.
func (s *scanner) readAttributes() bool {
	s.attributes = make(map[string]string)
	for {
		s.text = strings.TrimLeft(s.text, space+"/")
		if s.text == "" {
			return false
		}
		if s.text[0] == '>' {
			s.text = s.text[1:]
			return true
		}
		first := s.text[:1] // part of the name, even if it is "="
		s.text = s.text[1:]
		key := strings.ToLower(first + s.until(space+"/>="))
		value := ""
		if rest := strings.TrimLeft(s.text, space); strings.HasPrefix(rest, "=") {
			s.text = strings.TrimLeft(rest[1:], space)
			value = s.value()
		}
		if _, isThere := s.attributes[key]; !isThere {
			s.attributes[key] = reference.ReplaceAllStringFunc(value, html.UnescapeString)
		}
	}
}

// value reads the value of an attribute.
func (s *scanner) value() string {
	if s.text == "" || s.text[0] != '"' && s.text[0] != '\'' {
		return s.until(space + ">")
	}
	value, rest, _ := strings.Cut(s.text[1:], s.text[:1])
	s.text = rest
	return value
}

// until reads up to one of these bytes.
func (s *scanner) until(ends string) string {
	end := strings.IndexAny(s.text, ends)
	if end < 0 {
		end = len(s.text)
	}
	text := s.text[:end]
	s.text = s.text[end:]
	return text
}
