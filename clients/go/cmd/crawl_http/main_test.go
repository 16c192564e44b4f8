package main

import (
	"bytes"
	"context"
	"fmt"
	"math/rand"
	"net"
	"net/http"
	"os"
	"os/exec"
	"path/filepath"
	"reflect"
	"sort"
	"strconv"
	"strings"
	"sync"
	"syscall"
	"testing"
	"time"

	"mercator.example/frontier"
)

// These tests run the crawler over HTTP on 127.0.0.0/8, and the program that MERCATOR names.

// TestMain makes the binary of the tests a crawler, too.
func TestMain(m *testing.M) {
	if os.Getenv("CRAWL_HTTP") != "" {
		os.Exit(run(os.Args[1:]))
	}
	os.Exit(m.Run())
}

func needProgram(t *testing.T) {
	t.Helper()
	if os.Getenv("MERCATOR") == "" {
		t.Skip("MERCATOR does not name the program")
	}
}

// A crawler is a process of the crawler.
type crawler struct {
	cmd            *exec.Cmd
	stdout, stderr bytes.Buffer
	ended          chan struct{}
}

func start(t *testing.T, args ...string) *crawler {
	t.Helper()
	c := &crawler{cmd: exec.Command(os.Args[0], args...), ended: make(chan struct{})}
	c.cmd.Env = append(os.Environ(), "CRAWL_HTTP=1")
	c.cmd.Stdout, c.cmd.Stderr = &c.stdout, &c.stderr
	if err := c.cmd.Start(); err != nil {
		t.Fatal(err)
	}
	timer := time.AfterFunc(5*time.Minute, func() { c.cmd.Process.Kill() })
	go func() {
		c.cmd.Wait()
		timer.Stop()
		close(c.ended)
	}()
	return c
}

// wait returns the exit status, or -1 after a kill, and the status of each URL.
func (c *crawler) wait(t *testing.T) (int, map[string]string) {
	t.Helper()
	<-c.ended
	lines := strings.SplitAfter(c.stdout.String(), "\n")
	statuses := make(map[string]string)
	for _, line := range lines[:len(lines)-1] {
		words := strings.Fields(line)
		if len(words) != 3 || statuses[words[2]] != "" {
			t.Fatalf("line %q", line)
		}
		statuses[words[2]] = words[0]
	}
	return c.cmd.ProcessState.ExitCode(), statuses
}

func crawlAll(t *testing.T, args ...string) (status int, statuses map[string]string, stderr string) {
	t.Helper()
	c := start(t, args...)
	status, statuses = c.wait(t)
	return status, statuses, c.stderr.String()
}

// serve starts servers on 127.0.0.1 and the following addresses, all on one port. The handler gets
// the number of the host.
func serve(t *testing.T, hosts int, handle func(w http.ResponseWriter, r *http.Request, host int)) (port int) {
	t.Helper()
	for host := 1; host <= hosts; host++ {
		host := host
		listener, err := net.Listen("tcp", fmt.Sprintf("127.0.0.%d:%d", host, port))
		if err != nil {
			t.Fatal(err)
		}
		port = listener.Addr().(*net.TCPAddr).Port
		server := &http.Server{Handler: http.HandlerFunc(func(w http.ResponseWriter, r *http.Request) {
			handle(w, r, host)
		})}
		go server.Serve(listener)
		t.Cleanup(func() { server.Close() })
	}
	return port
}

func check(t *testing.T, what string, got, wanted any) {
	t.Helper()
	if !reflect.DeepEqual(got, wanted) {
		t.Fatalf("%s: %v, not %v", what, got, wanted)
	}
}

// A web is generated pages, redirects, 404s and dropped connections on some hosts, with links in
// many spellings.
type web struct {
	port, hosts int
	pages       []page
}

type page struct {
	kind    string
	targets []int
	texts   []string
}

func (w *web) place(page int) (host int, path string) {
	return page%w.hosts + 1, fmt.Sprintf("/d/%d", page)
}

func (w *web) url(page int) string {
	host, path := w.place(page)
	return fmt.Sprintf("http://127.0.0.%d:%d%s", host, w.port, path)
}

func (w *web) generate(random *rand.Rand, count int) {
	for number := 0; number < count; number++ {
		p := page{kind: "page"}
		if number > 0 {
			p.kind = []string{"page", "page", "page", "page", "redirect", "missing", "dropped"}[random.Intn(7)]
		}
		for i := random.Intn(5); i >= 0; i-- {
			target := random.Intn(count)
			p.targets = append(p.targets, target)
			p.texts = append(p.texts, w.spelled(random, number, target))
		}
		w.pages = append(w.pages, p)
	}
}

func (w *web) spelled(random *rand.Rand, from, to int) string {
	fromHost, _ := w.place(from)
	host, path := w.place(to)
	texts := []string{
		w.url(to), fmt.Sprintf("HTTP://127.0.0.%d:%d/x/..%s#part", host, w.port, path),
		fmt.Sprintf("//127.0.0.%d:%d/.%s", host, w.port, path),
	}
	if host == fromHost {
		texts = append(texts, path, fmt.Sprintf("../d/%d#f", to), fmt.Sprintf(" %d\n", to))
	}
	return texts[random.Intn(len(texts))]
}

// reached is a search of its own.
func (w *web) reached() map[string]bool {
	found := map[string]bool{}
	for rest := []int{0}; len(rest) > 0; rest = rest[1:] {
		url, p := w.url(rest[0]), w.pages[rest[0]]
		if found[url] {
			continue
		}
		found[url] = true
		switch p.kind {
		case "page":
			rest = append(rest, p.targets...)
		case "redirect":
			rest = append(rest, p.targets[0])
		}
	}
	return found
}

func TestKilledCrawls(t *testing.T) {
	needProgram(t)
	kills := 25
	if text := os.Getenv("KILLS"); text != "" {
		kills, _ = strconv.Atoi(text)
	}
	const workers = 4
	random := rand.New(rand.NewSource(1))
	w := &web{hosts: 5}
	var mutex sync.Mutex
	// How often each run requested each URL. A run has its number as agent, since the requests of a
	// crawler that was killed may arrive while the next one runs.
	var runs []map[string]int
	w.port = serve(t, w.hosts, func(response http.ResponseWriter, request *http.Request, host int) {
		number, err := strconv.Atoi(strings.TrimPrefix(request.URL.Path, "/d/"))
		if err != nil {
			http.NotFound(response, request)
			return
		}
		p := w.pages[number]
		mutex.Lock()
		run, _ := strconv.Atoi(request.UserAgent())
		runs[run][fmt.Sprintf("http://%s%s", request.Host, request.URL.Path)]++
		pause := time.Duration(5+random.Intn(10)) * time.Millisecond
		mutex.Unlock()
		switch p.kind {
		case "missing":
			http.NotFound(response, request)
		case "dropped":
			panic(http.ErrAbortHandler)
		case "redirect":
			response.Header().Set("Location", strings.TrimSpace(p.texts[0]))
			response.WriteHeader(302)
		default:
			time.Sleep(pause)
			response.Header().Set("Content-Type", "text/html")
			for _, text := range p.texts {
				fmt.Fprintf(response, "<a href='%s'>\n", text)
			}
		}
	})
	w.generate(random, 700)
	log := filepath.Join(t.TempDir(), "log")
	status := -1
	for status < 0 {
		run := make(map[string]int)
		mutex.Lock()
		runs = append(runs, run)
		goal, pause := 1+random.Intn(12), time.Duration(random.Intn(10))*time.Millisecond
		mutex.Unlock()
		c := start(t, "--delay", "0", "--workers", strconv.Itoa(workers), "--log", log,
			"--agent", strconv.Itoa(len(runs)-1), w.url(0))
		requests := func() int {
			mutex.Lock()
			defer mutex.Unlock()
			return len(run)
		}
		for isRunning := len(runs) <= kills; isRunning; {
			select {
			case <-c.ended:
				isRunning = false
			case <-time.After(time.Millisecond):
				if requests() >= goal {
					time.Sleep(pause)
					c.cmd.Process.Kill()
					isRunning = false
				}
			}
		}
		if status, _ = c.wait(t); c.stderr.String() != "" {
			t.Fatalf("run %d: %s", len(runs), c.stderr.String())
		}
	}
	check(t, "the status", status, 0)
	check(t, "runs (fewer if the web is too small)", len(runs), kills+1)
	all := map[string]bool{}
	again := 0
	for number, run := range runs {
		repeated := 0
		for url, times := range run {
			if times > 1 {
				t.Errorf("run %d requested %s %d times", number, url, times)
			}
			if all[url] {
				repeated++
			}
			all[url] = true
		}
		if repeated > workers {
			t.Errorf("run %d requested %d URLs again", number, repeated)
		}
		again += repeated
	}
	check(t, "URLs", all, w.reached())
	t.Logf("%d kills, %d URLs, %d of them requested again", kills, len(all), again)
}

func TestPoliteCrawl(t *testing.T) {
	needProgram(t)
	type request struct {
		at   time.Time
		path string
	}
	var mutex sync.Mutex
	var requests []request
	moved := map[string]string{"/d/moved": "../to?q#f", "/to?q": "to/ü", "/to/%C3%BC": "\xe9"}
	port := serve(t, 1, func(w http.ResponseWriter, r *http.Request, _ int) {
		mutex.Lock()
		requests = append(requests, request{time.Now(), r.RequestURI})
		mutex.Unlock()
		if r.UserAgent() != "bell/1.0" {
			t.Errorf("agent %s", r.UserAgent())
		}
		location := moved[r.RequestURI]
		switch {
		case r.RequestURI == "/robots.txt":
			fmt.Fprint(w, "User-agent: *\nDisallow: /\n\nUser-agent: Bell\nDisallow: /private\n")
		case r.RequestURI == "/":
			w.Header().Set("Content-Type", "text/html; charset=utf-8")
			fmt.Fprint(w, "<a href=/private/x>x</a><A HREF='moved'>m</A><a href=endless>e</a><base href=/d/>"+
				"<a href=y&amp;z>y</a><a href='//127.0.0.1:", r.Host[strings.Index(r.Host, ":")+1:], "//p|q'>")
		case location != "":
			w.Header()["Location"] = []string{location}
			w.WriteHeader(301)
		case r.RequestURI == "/d/endless":
			w.Header().Set("Content-Type", "text/html")
			for err := error(nil); err == nil; {
				_, err = fmt.Fprintf(w, "%-10000s", "<a href=/n>n</a>")
			}
		default:
			http.NotFound(w, r)
		}
	})
	site := fmt.Sprintf("http://127.0.0.1:%d", port)
	status, statuses, stderr := crawlAll(t, "--delay", "0.2", "--largest", "100000", "--agent", "bell/1.0", site+"/")
	check(t, "the status", status, 0)
	check(t, "messages", stderr, "")
	wanted := map[string]string{
		"/": "200", "/private/x": "robots", "/d/moved": "301", "/d/endless": "200", "/d/y&z": "404",
		"/n": "404", "/to?q": "301", "/to/%C3%BC": "301", "/to/%C3%A9": "404", "//p|q": "404",
	}
	paths := []string{"/robots.txt"}
	for path, status := range wanted {
		check(t, path, statuses[site+path], status)
		if status != "robots" {
			paths = append(paths, path)
		}
	}
	check(t, "the number of URLs", len(statuses), len(wanted))
	requested := []string{}
	for i, one := range requests {
		requested = append(requested, one.path)
		if i > 0 && one.at.Sub(requests[i-1].at) < 190*time.Millisecond {
			t.Errorf("%s after %v", one.path, one.at.Sub(requests[i-1].at))
		}
	}
	sort.Strings(paths)
	sort.Strings(requested)
	// An absolute URL, since a path with two slashes would be read as a host.
	for i, path := range requested {
		requested[i] = strings.TrimPrefix(path, site)
	}
	sort.Strings(requested)
	check(t, "requests", requested, paths)
}

// One worker visits ten hosts in about the time that one host takes, and each with its delay.
func TestManyHosts(t *testing.T) {
	needProgram(t)
	const hosts, pages = 10, 5
	const delay = 300 * time.Millisecond
	var mutex sync.Mutex
	times := map[int][]time.Time{}
	port := serve(t, hosts, func(w http.ResponseWriter, r *http.Request, host int) {
		mutex.Lock()
		times[host] = append(times[host], time.Now())
		mutex.Unlock()
		if r.URL.Path == "/robots.txt" {
			http.NotFound(w, r)
			return
		}
		w.Header().Set("Content-Type", "text/html")
		_, port, _ := net.SplitHostPort(r.Host)
		for host := 1; r.URL.Path == "/" && host <= hosts; host++ {
			for page := 0; page < pages; page++ {
				fmt.Fprintf(w, "<a href=http://127.0.0.%d:%s/%d>", host, port, page)
			}
		}
	})
	log := filepath.Join(t.TempDir(), "log")
	begun := time.Now()
	status, statuses, stderr := crawlAll(t, "--workers", "1", "--delay", fmt.Sprint(delay.Seconds()), "--log", log,
		fmt.Sprintf("http://127.0.0.1:%d/", port))
	check(t, "the status", status, 0)
	check(t, "messages", stderr, "")
	check(t, "the number of URLs", len(statuses), 1+hosts*pages)
	// Host by host they would take 17 seconds.
	if took := time.Since(begun); took > 8*time.Second {
		t.Errorf("the crawl took %v", took)
	}
	for host, all := range times {
		for i := 1; i < len(all); i++ {
			if pause := all[i].Sub(all[i-1]); pause < delay-10*time.Millisecond {
				t.Errorf("host %d was not given its delay: %v", host, pause)
			}
		}
	}
	text, err := os.ReadFile(log)
	check(t, "the log", err, nil)
	if count := strings.Count(string(text), "\nlater "); count == 0 || count > (1+hosts*pages)*hosts*(oldHosts+1) {
		t.Errorf("%d URLs were put back", count)
	}
}

// While all hosts of a queue have to wait, hosts that are found elsewhere are visited.
func TestHostsThatAreFoundDuringAWait(t *testing.T) {
	needProgram(t)
	const hosts = 8
	var slow string // the host that waits for an hour
	port := serve(t, hosts, func(w http.ResponseWriter, r *http.Request, _ int) {
		switch {
		case r.URL.Path != "/robots.txt":
			w.Header().Set("Content-Type", "text/html")
		case strings.HasPrefix(r.Host, slow+":"):
			fmt.Fprint(w, "User-agent: *\nCrawl-delay: 3600")
		}
		if r.URL.Path == "/links" {
			time.Sleep(time.Second)
			_, port, _ := net.SplitHostPort(r.Host)
			for host := 1; host <= hosts; host++ {
				fmt.Fprintf(w, "<a href=http://127.0.0.%d:%s/new>", host, port)
			}
		}
	})
	f, err := frontier.Open(context.Background(), frontier.Options{Workers: 2})
	check(t, "open", err, nil)
	defer f.Close()
	for host := 1; host <= hosts; host++ {
		f.Offer(fmt.Sprintf("http://127.0.0.%d:%d/", host, port))
	}
	var seeds [2]string // a host of each queue
	for queue := range seeds {
		seeds[queue], err = f.Take(context.Background(), queue)
		check(t, "a host of the queue", err, nil)
	}
	slow = hostOf(seeds[0])
	// All but the second and third URL of the slow host.
	pages := 1 + 1 + hosts - 1
	begun := time.Now()
	status, statuses, stderr := crawlAll(t, "--workers", "2", "--delay", "0", "--pages", fmt.Sprint(pages),
		seeds[0], seeds[0]+"2", seeds[1]+"links")
	check(t, "the status", status, 2)
	check(t, "messages", stderr, "")
	check(t, "the number of URLs", len(statuses), pages)
	if took := time.Since(begun); took > time.Minute {
		t.Errorf("the crawl took %v", took)
	}
}

func TestHostsThatFail(t *testing.T) {
	needProgram(t)
	var mutex sync.Mutex
	attempts := map[string]int{}
	port := serve(t, 6, func(w http.ResponseWriter, r *http.Request, host int) {
		mutex.Lock()
		defer mutex.Unlock()
		key := fmt.Sprint(host, r.URL.Path)
		attempts[key]++
		if r.URL.Path == "/shut" {
			fmt.Fprint(w, "User-agent: *\nDisallow: /")
			return
		}
		if r.URL.Path != "/robots.txt" {
			return
		}
		switch host {
		case 1: // it can be read the third time
			w.WriteHeader([]int{503, 503, 404}[attempts[key]-1])
		case 2:
			w.WriteHeader(500)
		case 3:
			fmt.Fprint(w, "User-agent: *\nCrawl-delay: 86401")
		case 4: // a redirect is resolved against the URL of the robots.txt, and obeyed
			http.Redirect(w, r, "/shut", 301)
		case 5:
			w.Header().Set("Location", "ftp://"+r.Host+"/robots.txt")
			w.WriteHeader(301)
		case 6:
			w.Header().Set("Location", "/robots.txt")
			w.WriteHeader(301)
		}
	})
	wanted := map[string]string{"http://127.0.0.9:1/": "failed", "http://127.0.0.9:1/b": "failed"}
	for i, status := range []string{"200", "no-robots", "robots", "robots", "no-robots", "no-robots"} {
		wanted[fmt.Sprintf("http://127.0.0.%d:%d/", i+1, port)] = status
	}
	args := []string{"--delay", "0"}
	for url := range wanted {
		args = append(args, url)
	}
	status, statuses, stderr := crawlAll(t, args...)
	check(t, "the status", status, 0)
	check(t, "messages", stderr, "")
	check(t, "statuses", statuses, wanted)
	check(t, "attempts", []int{attempts["1/robots.txt"], attempts["2/robots.txt"], attempts["2/"]}, []int{3, 3, 0})
}

func TestPages(t *testing.T) {
	needProgram(t)
	port := serve(t, 1, func(w http.ResponseWriter, r *http.Request, _ int) {
		w.Header().Set("Content-Type", "text/html")
		fmt.Fprint(w, "<a href=/1><a href=/2><a href=/3>")
	})
	log := filepath.Join(t.TempDir(), "log")
	all := map[string]string{}
	for _, wanted := range []struct{ status, count int }{{2, 2}, {2, 2}, {0, 0}} {
		status, statuses, stderr := crawlAll(t, "--delay", "0", "--pages", "2", "--log", log,
			fmt.Sprintf("http://127.0.0.1:%d/", port))
		check(t, "the status", status, wanted.status)
		check(t, "messages", stderr, "")
		check(t, "the number of URLs", len(statuses), wanted.count)
		for url := range statuses {
			check(t, url, all[url], "")
			all[url] = "200"
		}
	}
	check(t, "all URLs", len(all), 4)
}

func TestCommandLines(t *testing.T) {
	for _, args := range [][]string{
		{}, {"--workers", "x", "http://a.test/"}, {"--wat", "http://a.test/"}, {"--delay", "-1", "http://a.test/"},
		{"--workers", "0", "http://a.test/"},
	} {
		status, _, stderr := crawlAll(t, args...)
		if status != 3 || !strings.HasPrefix(stderr, "crawl_http: ") {
			t.Errorf("%v: status %d, %s", args, status, stderr)
		}
	}
	status, _, stderr := crawlAll(t, "--program", "/no/such/program", "http://a.test/")
	if status != 1 || !strings.HasPrefix(stderr, "crawl_http: ") {
		t.Errorf("no program: status %d, %s", status, stderr)
	}
	needProgram(t)
	status, _, stderr = crawlAll(t, "nowhere", "mailto:x")
	check(t, "the status", status, 0)
	check(t, "messages", stderr, "crawl_http: seed nowhere: not a URL\ncrawl_http: seed mailto:x: not http or https\n")
}

func TestInterrupt(t *testing.T) {
	needProgram(t)
	requested := make(chan bool, 1)
	end := make(chan bool)
	defer close(end)
	port := serve(t, 1, func(w http.ResponseWriter, r *http.Request, _ int) {
		requested <- true
		<-end
	})
	log := filepath.Join(t.TempDir(), "log")
	c := start(t, "--log", log, fmt.Sprintf("http://127.0.0.1:%d/", port))
	<-requested
	c.cmd.Process.Signal(syscall.SIGINT)
	status, statuses := c.wait(t)
	check(t, "the status", status, 2)
	check(t, "messages", c.stderr.String(), "")
	check(t, "lines", len(statuses), 0)
	lines, err := os.ReadFile(log)
	if err != nil || strings.Contains(string(lines), "done") {
		t.Errorf("the URL is done: %s, %v", lines, err)
	}
}
