// Crawl_http is a crawler over mercator serve. It fetches pages over HTTP with N workers, and visits
// each host with one of them.
//
// Usage:
//
//	crawl_http [--workers N] [--within SUFFIX] [--log FILE] [--delay S] [--largest BYTES]
//	           [--pages N] [--agent NAME] [--program FILE] SEED..
//
// It prints a line for each URL: the status, the number of its links that are new, and the URL. The
// status is "robots" if robots.txt forbids the URL, "no-robots" if robots.txt cannot be read, and
// "failed" if the host does not respond.
//
//   - It respects robots.txt, and waits between two requests to a host: --delay seconds, or the
//     Crawl-delay of robots.txt if that is longer. Meanwhile the worker visits its other hosts, so
//     the URLs of a host are not always fetched in the order in which they were found. It skips a
//     host if its robots.txt asks for more than a day, or if three requests for it fail: there is
//     no response, or its status is 5xx.
//   - It reads at most --largest bytes of a page, in at most 30 seconds.
//   - It offers the target of a redirect, and does not follow it.
//   - With --log, it resumes after Ctrl-C, kill -9 or a crash: run the same command again.
//
// The scanner for links is small. It does not read srcset, style sheets or scripts. It knows only
// pages in UTF-8, or in Latin-1 if the server says so. The crawler keeps no cookies, and does not
// retry a page.
//
// Exit status: 0 no URL is left, 1 the frontier failed, 2 Ctrl-C, or --pages URLs were fetched,
// 3 bad command line.
package main

import (
	"context"
	"errors"
	"flag"
	"fmt"
	"io"
	"os"
	"os/signal"
	"sync/atomic"
	"time"

	"mercator.example/frontier"
)

// settings are the options of the command line.
type settings struct {
	frontier frontier.Options
	delay    time.Duration
	largest  int64
	pages    int64
	agent    string
	seeds    []string
}

func main() {
	os.Exit(run(os.Args[1:]))
}

func run(args []string) int {
	s, err := parse(args)
	if errors.Is(err, flag.ErrHelp) {
		return 0
	}
	if err != nil {
		fmt.Fprintln(os.Stderr, "crawl_http:", err)
		return 3
	}
	ctx, stop := signal.NotifyContext(context.Background(), os.Interrupt)
	defer stop()
	err = crawl(ctx, s)
	if errors.Is(err, context.Canceled) {
		return 2
	}
	if err != nil {
		fmt.Fprintln(os.Stderr, "crawl_http:", err)
		return 1
	}
	return 0
}

func parse(args []string) (*settings, error) {
	var s settings
	var delay float64
	flags := flag.NewFlagSet("crawl_http", flag.ContinueOnError)
	flags.SetOutput(io.Discard) // run prints the errors
	flags.Usage = func() {}
	flags.IntVar(&s.frontier.Workers, "workers", 4, "`number` of workers")
	flags.StringVar(&s.frontier.Within, "within", "",
		"crawl only hosts equal to this `suffix` or subdomains of it")
	flags.StringVar(&s.frontier.Log, "log", "", "log `file`; run again with it to resume")
	flags.StringVar(&s.frontier.Program, "program", "",
		"`path` of mercator (default $MERCATOR if it is set, else mercator)")
	flags.Float64Var(&delay, "delay", 1, "`seconds` between two requests to a host")
	flags.Int64Var(&s.largest, "largest", 5_000_000, "most `bytes` to read of a page")
	flags.Int64Var(&s.pages, "pages", 0, "stop after this `number` of URLs (default no limit)")
	flags.StringVar(&s.agent, "agent", "crawl_http",
		"`name` to send as User-Agent; choose one of your own")
	err := flags.Parse(args)
	s.seeds, s.delay = flags.Args(), time.Duration(delay*float64(time.Second))
	switch {
	case errors.Is(err, flag.ErrHelp):
		fmt.Println("usage: crawl_http [OPTION].. SEED..")
		flags.SetOutput(os.Stdout)
		flags.PrintDefaults()
	case err != nil:
	case len(s.seeds) == 0:
		err = errors.New("no SEED")
	case s.frontier.Workers < 1:
		err = errors.New("--workers must be at least 1")
	case !(0 <= delay && delay <= day):
		err = fmt.Errorf("--delay must be from 0 to %d", day)
	}
	return &s, err
}

// crawl crawls until no URL is left. If it is stopped before, the error is context.Canceled.
func crawl(ctx context.Context, s *settings) error {
	f, err := frontier.Open(ctx, s.frontier)
	if err != nil {
		return err
	}
	defer f.Close()
	if err := offerSeeds(f, s.seeds); err != nil {
		return err
	}
	// The frontier does not end with this context, so that the last of --pages URLs can be done.
	ctx, cancel := context.WithCancel(ctx)
	defer cancel()
	visitors := make([]*visitor, s.frontier.Workers)
	for queue := range visitors {
		visitors[queue] = newVisitor(s, f, queue)
	}
	var count atomic.Int64
	return f.Run(ctx, func(ctx context.Context, queue int, url string) error {
		v := visitors[queue]
		if !v.isReady(ctx, url) {
			return frontier.ErrLater
		}
		r := v.visit(ctx, url)
		if err := ctx.Err(); err != nil {
			return err // the URL stays in progress
		}
		base, links := linksOf(url, r.text)
		if r.target != "" {
			links = []string{r.target}
		}
		statuses, err := f.Links(base, links...)
		if err != nil {
			return err
		}
		accepted := 0
		for _, status := range statuses {
			if status == frontier.Accepted {
				accepted++
			}
		}
		fmt.Printf("%s %d %s\n", r.status, accepted, url)
		if count.Add(1) == s.pages {
			cancel()
		}
		return nil
	})
}

func offerSeeds(f *frontier.Frontier, seeds []string) error {
	statuses, err := f.Offer(seeds...)
	if err != nil {
		return err
	}
	for i, status := range statuses {
		switch status {
		case frontier.Accepted, frontier.Full:
		case frontier.Seen, frontier.Closed: // the crawl has resumed, or is over
		default:
			fmt.Fprintf(os.Stderr, "crawl_http: seed %s: %s\n", seeds[i], status)
		}
	}
	return f.EndSeeds()
}
