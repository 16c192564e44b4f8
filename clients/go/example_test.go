package frontier_test

import (
	"context"
	"fmt"
	"log"

	"mercator.example/frontier"
)

// This crawl visits three URLs. It uses a map in place of fetching.
func Example() {
	web := map[string][]string{
		"http://a.test/":  {"/b", "#top", "HTTP://C.test:80"},
		"http://a.test/b": {"http://c.test"},
	}
	ctx := context.Background()
	f, err := frontier.Open(ctx, frontier.Options{Workers: 1})
	if err != nil {
		log.Fatal(err)
	}
	defer f.Close()
	if _, err := f.Offer("http://a.test/"); err != nil {
		log.Fatal(err)
	}
	if err := f.EndSeeds(); err != nil {
		log.Fatal(err)
	}
	err = f.Run(ctx, func(ctx context.Context, queue int, url string) error {
		fmt.Println(url)
		_, err := f.Links(url, web[url]...)
		return err
	})
	if err != nil {
		log.Fatal(err)
	}
	// Output:
	// http://a.test/
	// http://a.test/b
	// http://c.test/
}
