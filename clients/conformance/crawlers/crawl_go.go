// A crawler over the Go client, for the suite: crawl_go WORKERS LOG SEED..
package main

import (
	"context"
	"fmt"
	"io"
	"net/http"
	"os"
	"strconv"
	"strings"
	"time"

	"mercator.example/frontier"
)

// Each connection is used once, since net/http repeats requests on those that are used again.
var client = http.Client{
	Transport: &http.Transport{DisableKeepAlives: true},
	Timeout:   10 * time.Second,
	CheckRedirect: func(*http.Request, []*http.Request) error {
		return http.ErrUseLastResponse
	},
}

// get returns the target of a redirect, or the lines of a page. If the page is refused, the error is
// frontier.ErrLater.
func get(ctx context.Context, url string) ([]string, error) {
	request, err := http.NewRequestWithContext(ctx, http.MethodGet, url, nil)
	if err != nil {
		return nil, nil
	}
	response, err := client.Do(request)
	if err != nil {
		return nil, nil
	}
	defer response.Body.Close()
	switch response.StatusCode {
	case http.StatusServiceUnavailable:
		return nil, frontier.ErrLater
	case http.StatusFound:
		return []string{response.Header.Get("Location")}, nil
	case http.StatusOK:
		if body, err := io.ReadAll(response.Body); err == nil {
			lines := strings.Split(string(body), "\n")
			return lines[:len(lines)-1], nil
		}
	}
	return nil, nil
}

func crawl(workers int, log string, seeds []string) error {
	ctx := context.Background()
	options := frontier.Options{Workers: workers}
	if log != "-" {
		options.Log = log
	}
	f, err := frontier.Open(ctx, options)
	if err != nil {
		return err
	}
	defer f.Close()
	if _, err := f.Offer(seeds...); err != nil {
		return err
	}
	if err := f.EndSeeds(); err != nil {
		return err
	}
	return f.Run(ctx, func(ctx context.Context, queue int, url string) error {
		if os.Getenv("STATS") != "" {
			if err := printStats(f, queue); err != nil {
				return err
			}
		}
		base := url
		lines, err := get(ctx, url)
		if err != nil {
			return err
		}
		var texts []string
		for _, line := range lines {
			if strings.HasPrefix(line, "base ") {
				base = line[len("base "):]
			} else {
				texts = append(texts, strings.ReplaceAll(line, `\n`, "\n"))
			}
		}
		_, err = f.Links(base, texts...)
		return err
	})
}

func printStats(f *frontier.Frontier, queue int) error {
	for name, queue := range map[string]int{fmt.Sprint(queue): queue, "all": -1} {
		s, err := f.Stats(queue)
		if err != nil {
			return err
		}
		fmt.Println("stats", name, s.Accepted, s.Done, s.InProgress, s.Waiting, s.PutBack, s.Seen)
	}
	return nil
}

func main() {
	workers, err := strconv.Atoi(os.Args[1])
	if err == nil {
		err = crawl(workers, os.Args[2], os.Args[3:])
	}
	if err != nil {
		fmt.Fprintln(os.Stderr, "crawl_go:", err)
		os.Exit(1)
	}
}
