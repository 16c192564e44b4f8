package main

import (
	"context"
	"crypto/tls"
	"io"
	"mime"
	"net/http"
	"net/url"
	"strconv"
	"strings"
	"time"
	"unicode/utf8"
)

const fetchTime = 30 * time.Second

// RoundTrip of a transport follows no redirect. net/http repeats requests by itself on connections
// that are used again, and over HTTP/2, so neither is allowed.
var transport = &http.Transport{
	DisableKeepAlives: true,
	TLSNextProto:      make(map[string]func(string, *tls.Conn) http.RoundTripper),
}

// A reply is the response to a request.
type reply struct {
	status string // the HTTP status, or why there is none
	target string // where a redirect leads
	text   string
}

// get requests a URL, and reads its text if it is a page or any robots.txt. What cannot be read in
// time, or is larger, is cut off.
func get(ctx context.Context, link, agent string, largest int64, isRobots bool) reply {
	ctx, cancel := context.WithTimeout(ctx, fetchTime)
	defer cancel()
	// The URL is sent as it is: net/url would refuse some, and write others in another form.
	scheme, host, target := split(link)
	if strings.HasPrefix(target, "//") {
		target = "//" + host + target
	}
	request := (&http.Request{
		Method: http.MethodGet,
		URL:    &url.URL{Scheme: scheme, Host: host, Opaque: target},
		Header: http.Header{"User-Agent": {agent}},
	}).WithContext(ctx)
	response, err := transport.RoundTrip(request)
	if err != nil {
		return reply{status: "failed"}
	}
	defer response.Body.Close()
	r := reply{status: strconv.Itoa(response.StatusCode)}
	kind, parameters, _ := mime.ParseMediaType(response.Header.Get("Content-Type"))
	switch response.StatusCode {
	case 301, 302, 303, 307, 308:
		// Servers send UTF-8, although headers should be Latin-1.
		if r.target = response.Header.Get("Location"); !utf8.ValidString(r.target) {
			r.target = decoded(r.target, "latin1")
		}
	case 200:
		if isRobots || kind == "text/html" || kind == "application/xhtml+xml" {
			body, _ := io.ReadAll(io.LimitReader(response.Body, largest))
			r.text = decoded(string(body), parameters["charset"])
		}
	}
	return r
}

// split returns the scheme of a URL, the host with its port, and the path with its query.
func split(link string) (scheme, host, target string) {
	scheme, rest, _ := strings.Cut(link, "://")
	host, path, _ := strings.Cut(rest, "/")
	return scheme, host[strings.LastIndexByte(host, '@')+1:], "/" + path
}

// decoded decodes a text. It knows only UTF-8 and Latin-1.
func decoded(text, charset string) string {
	switch strings.ToLower(charset) {
	case "iso-8859-1", "latin1", "us-ascii", "windows-1252":
		runes := make([]rune, len(text))
		for i := range runes {
			runes[i] = rune(text[i])
		}
		return string(runes)
	}
	return strings.ToValidUTF8(text, "\ufffd")
}
