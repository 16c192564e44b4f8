package main

import (
	"reflect"
	"strings"
	"testing"
)

func TestLinks(t *testing.T) {
	for _, one := range []struct {
		page  string
		texts []string
	}{
		{
			"<a href=1><A\nHREF = \"2 3\" x><a x href='4'/><img src=5><link href=6><a href=7 href=8><a name=x>",
			[]string{"1", "2 3", "4", "5", "6", "7"},
		},
		{
			"<!-- <a href=1> --><a href=2><!--><a href=3><!doctype html><?x <a href=4>?></a href=5><a/href=6>",
			[]string{"2", "3", "6"},
		},
		{
			"<script src=1>\"<a href=2>\"</scripty></script ><a href=3><style><a href=4></STYLE><a href=5><title><a href=6>",
			[]string{"1", "3", "5"},
		},
		{
			`<a href="&amp;&#38;&#x26;&lt;&eacute;&#0;&#x110000;?a&copy=1&lang=2&amp">`,
			[]string{"&&&<é\ufffd\ufffd?a&copy=1&lang=2&amp"},
		},
		{`<a href="1`, nil},
		{"<a href=1", nil},
		{"<a href=1 ", nil},
		{"a < b <a href=>", []string{""}},
		{"<", nil},
		{"<a =x href=1 = y>", []string{"1"}},
		{"<scrıpt><a href=1></script><a href=2>", []string{"1", "2"}},
	} {
		if _, texts := linksOf("http://a.test/d/", one.page); !reflect.DeepEqual(texts, one.texts) {
			t.Errorf("%q: %q, not %q", one.page, texts, one.texts)
		}
	}
	for page, base := range map[string]string{
		`<base target=x><base href="../e/"><base href=f>`: "http://a.test/e/",
		`<base href="http://[">`:                          "http://a.test/d/",
		"":                                                "http://a.test/d/",
	} {
		if got, _ := linksOf("http://a.test/d/", page); got != base {
			t.Errorf("%s: %s", page, got)
		}
	}
	// Pages that would take hours if texts were read twice.
	for _, piece := range []string{
		"<", "<a ", `<a b="`, "<a b='", "<!--", "<script>", "<a b=", "</", "<a =", "<a b \n", "<script></",
	} {
		linksOf("http://a.test/", strings.Repeat(piece, 300_000))
	}
}
