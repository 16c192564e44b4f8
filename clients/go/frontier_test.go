package frontier

import (
	"context"
	"errors"
	"fmt"
	"io"
	"io/fs"
	"os"
	"os/exec"
	"path/filepath"
	"reflect"
	"strings"
	"sync"
	"syscall"
	"testing"
	"time"
)

const limit = 2 * time.Minute

func TestMain(m *testing.M) {
	if os.Getenv("MERCATOR") == "" {
		fmt.Println("skipped: MERCATOR does not name the program")
		os.Exit(0)
	}
	if log := os.Getenv("CRAWL_TO_BE_KILLED"); log != "" {
		crawlToBeKilled(log)
	}
	os.Exit(m.Run())
}

func open(t *testing.T, options Options) *Frontier {
	t.Helper()
	f, err := Open(context.Background(), options)
	if err != nil {
		t.Fatal(err)
	}
	t.Cleanup(func() { f.Close() })
	return f
}

// script returns a program that takes the place of mercator.
func script(t *testing.T, text string) string {
	t.Helper()
	file := filepath.Join(t.TempDir(), "mercator.sh")
	if err := os.WriteFile(file, []byte("#!/bin/sh\n"+text+"\n"), 0o755); err != nil {
		t.Fatal(err)
	}
	return file
}

// timed returns a context for calls that have to return soon.
func timed(t *testing.T) context.Context {
	ctx, cancel := context.WithTimeout(context.Background(), limit)
	t.Cleanup(cancel)
	return ctx
}

func check(t *testing.T, what string, got, wanted any) {
	t.Helper()
	if !reflect.DeepEqual(got, wanted) {
		t.Fatalf("%s: %v, not %v", what, got, wanted)
	}
}

func checkError(t *testing.T, what string, got, wanted error) {
	t.Helper()
	if !errors.Is(got, wanted) {
		t.Fatalf("%s: error %v, not %v", what, got, wanted)
	}
}

func offer(t *testing.T, f *Frontier, urls ...string) []Status {
	t.Helper()
	statuses, err := f.Offer(urls...)
	if err != nil {
		t.Fatal(err)
	}
	return statuses
}

func take(t *testing.T, f *Frontier, queue int) string {
	t.Helper()
	url, err := f.Take(timed(t), queue)
	if err != nil {
		t.Fatal(err)
	}
	return url
}

func done(t *testing.T, f *Frontier, queue int) int {
	t.Helper()
	count, err := f.Done(queue)
	if err != nil {
		t.Fatal(err)
	}
	return count
}

func TestAnswers(t *testing.T) {
	f := open(t, Options{Workers: 1, Within: "test", MaxPending: 3})
	ctx := timed(t)
	check(t, "the first offer", offer(t, f, "http://A.test:80/x/../y#f"), []Status{Accepted})
	check(t, "offers", offer(t, f,
		"http://a.test/y", "http://b.other/", "mailto:a@b.test", "nowhere",
		"http://a.test/"+strings.Repeat("x", 9000), "http://a.test/\xff",
		"http://a.te\nst/\r\nnext 0\n", "http://a.test/full",
	), []Status{Seen, Filtered, NotHTTP, NotURL, TooLong, NotUTF8, Accepted, Full})
	check(t, "no offer", offer(t, f), []Status{})
	check(t, "the first URL", take(t, f, 0), "http://a.test/y")
	_, err := f.Take(ctx, 0)
	checkError(t, "a URL too soon", err, ErrQueueBusy)
	for _, queue := range []int{-1, 1, 1 << 31} {
		_, err = f.Take(ctx, queue)
		checkError(t, "a URL of no queue", err, ErrNoSuchQueue)
		_, err = f.Done(queue)
		checkError(t, "done of no queue", err, ErrNoSuchQueue)
		_, err = f.Later(queue)
		checkError(t, "later of no queue", err, ErrNoSuchQueue)
	}
	// The URL that was kept takes the room.
	check(t, "unfinished", done(t, f, 0), 2)
	_, err = f.Done(0)
	checkError(t, "done twice", err, ErrNothingTaken)
	check(t, "the second URL", take(t, f, 0), "http://a.test/next%200")
	for i := 0; i < 2; i++ {
		if err := f.EndSeeds(); err != nil {
			t.Fatal(err)
		}
	}
	links, err := f.Links(" http://a.test/d e/f\t?q ", "../y", "f g", "", "mailto:x", "//b.other")
	checkError(t, "links", err, nil)
	check(t, "links", links, []Status{Seen, Accepted, Full, NotHTTP, Filtered})
	done(t, f, 0)
	var urls []string
	checkError(t, "the crawl", f.Run(ctx, func(_ context.Context, _ int, url string) error {
		urls = append(urls, url)
		return nil
	}), nil)
	check(t, "the last URLs", urls, []string{
		"http://a.test/full", "http://a.test/d%20e/f%20g", "http://a.test/d%20e/f?q",
	})
	_, err = f.Take(ctx, 0)
	check(t, "the end", err, io.EOF)
	check(t, "a late offer", offer(t, f, "http://a.test/late"), []Status{Closed})
	links, err = f.Links("http://a.test/"+strings.Repeat("x", 1_000_000), "y", "z")
	checkError(t, "links of a long base", err, nil)
	check(t, "links of a long base", links, []Status{TooLong, TooLong})
	checkError(t, "close", f.Close(), nil)
}

// A URL that is put back is taken after those that wait, and before what is offered later. There is
// no room for it to be refused, and none for the URL that was kept.
func TestLater(t *testing.T) {
	f := open(t, Options{Workers: 1, MaxPending: 4})
	_, err := f.Later(0)
	checkError(t, "later of nothing", err, ErrNothingTaken)
	offer(t, f, "http://a.test/1", "http://b.test/2", "http://c.test/3", "http://d.test/4")
	for _, url := range []string{"http://a.test/1", "http://b.test/2", "http://c.test/3", "http://a.test/1"} {
		check(t, "a URL", take(t, f, 0), url)
		left, err := f.Later(0)
		checkError(t, "later", err, nil)
		check(t, "unfinished", left, 4)
	}
	checkError(t, "the end of the seeds", f.EndSeeds(), nil)
	var urls []string
	checkError(t, "the crawl", f.Run(timed(t), func(_ context.Context, _ int, url string) error {
		if urls = append(urls, url); len(urls) <= 2 {
			return ErrLater
		}
		return nil
	}), nil)
	check(t, "the URLs", urls, []string{
		"http://b.test/2", "http://c.test/3", "http://a.test/1", "http://d.test/4", "http://b.test/2",
		"http://c.test/3",
	})
	_, err = f.Later(0)
	checkError(t, "later after the end", err, ErrNothingTaken)
}

func TestStats(t *testing.T) {
	f := open(t, Options{Workers: 2})
	offer(t, f, "http://a.test/1", "http://a.test/2", "http://a.test/3", "http://a.test/3#x", "http://b.test/")
	byQueue := map[string]int{}
	for queue := 0; queue < 2; queue++ {
		byQueue[take(t, f, queue)] = queue
	}
	queue, other := byQueue["http://a.test/1"], byQueue["http://b.test/"]
	if queue == other {
		t.Fatal("the hosts are in one queue")
	}
	_, err := f.Later(queue)
	checkError(t, "later", err, nil)
	take(t, f, queue)
	done(t, f, queue)
	for queue, wanted := range map[int]Stats{
		queue: {Accepted: 3, Done: 1, Waiting: 2, PutBack: 1, Seen: 1},
		other: {Accepted: 1, InProgress: 1},
		-1:    {Accepted: 4, Done: 1, InProgress: 1, Waiting: 2, PutBack: 1, Seen: 1},
	} {
		stats, err := f.Stats(queue)
		checkError(t, "stats", err, nil)
		check(t, fmt.Sprint("stats of ", queue), stats, wanted)
	}
	_, err = f.Stats(2)
	checkError(t, "stats of no queue", err, ErrNoSuchQueue)
	text := "read -r line; echo refused nothing; read -r line; echo stats accepted 1 done 2"
	g := open(t, Options{Workers: 1, Program: script(t, text)})
	_, err = g.Stats(-1)
	checkError(t, "stats that are cut off", err, ErrUnknownAnswer)
}

func TestArrival(t *testing.T) {
	f := open(t, Options{Workers: 2})
	isOver := func(arrival <-chan struct{}) bool {
		select {
		case <-arrival:
			return true
		default:
			return false
		}
	}
	arrivals := []<-chan struct{}{f.Arrival(0), f.Arrival(1)}
	offer(t, f, "http://a.test/", "http://a.test/#", "mailto:x")
	check(t, "one arrival", isOver(arrivals[0]) != isOver(arrivals[1]), true)
	for queue := range arrivals {
		arrivals[queue] = f.Arrival(queue)
		check(t, "a second arrival", isOver(arrivals[queue]), false)
	}
	checkError(t, "close", f.Close(), nil)
	check(t, "the end", isOver(arrivals[0]) && isOver(arrivals[1]), true)
}

// Each of two goroutines takes what the other one offers, so that each wait is soon over.
func TestNoWakeUpIsLost(t *testing.T) {
	f := open(t, Options{Workers: 2})
	ctx := timed(t)
	const rounds = 1000
	errs := make(chan error)
	hosts := []string{"", ""} // by queue
	for i := 0; hosts[0] == "" || hosts[1] == ""; i++ {
		host := fmt.Sprintf("http://h%d.test/", i)
		offer(t, f, host)
		for queue := range hosts {
			short, cancel := context.WithTimeout(ctx, 10*time.Millisecond)
			if url, err := f.Take(short, queue); err == nil {
				hosts[queue] = url
				done(t, f, queue)
			}
			cancel()
		}
	}
	for queue := range hosts {
		go func(queue int) {
			errs <- func() error {
				for i := 0; i < rounds; i++ {
					if _, err := f.Offer(fmt.Sprint(hosts[1-queue], i)); err != nil {
						return err
					}
					if _, err := f.Take(ctx, queue); err != nil {
						return fmt.Errorf("round %d: %w", i, err)
					}
					if _, err := f.Done(queue); err != nil {
						return err
					}
				}
				return nil
			}()
		}(queue)
	}
	for range hosts {
		checkError(t, "a queue", <-errs, nil)
	}
	// The wait for the end, too: all that wait are woken.
	for range hosts {
		for queue := range hosts {
			go func(queue int) {
				_, err := f.Take(ctx, queue)
				errs <- err
			}(queue)
		}
	}
	time.Sleep(50 * time.Millisecond)
	checkError(t, "the end of the seeds", f.EndSeeds(), nil)
	for i := 0; i < 4; i++ {
		checkError(t, "the end", <-errs, io.EOF)
	}
}

func TestKilledProgram(t *testing.T) {
	f := open(t, Options{Workers: 2})
	waiting := make(chan error)
	go func() {
		_, err := f.Take(timed(t), 0)
		waiting <- err
	}()
	time.Sleep(50 * time.Millisecond)
	pid := f.cmd.Process.Pid
	syscall.Kill(pid, syscall.SIGSTOP)
	time.AfterFunc(50*time.Millisecond, func() { syscall.Kill(pid, syscall.SIGKILL) })
	isKilled := func(err error) {
		t.Helper()
		var exit *exec.ExitError
		if !errors.As(err, &exit) || exit.Sys().(syscall.WaitStatus).Signal() != syscall.SIGKILL {
			t.Fatalf("error %v", err)
		}
	}
	_, err := f.Offer("http://a.test/")
	isKilled(err)
	isKilled(<-waiting)
	isKilled(f.Run(timed(t), nil))
	isKilled(f.Close())
}

func TestClose(t *testing.T) {
	f := open(t, Options{Workers: 1})
	waiting := make(chan error)
	go func() {
		_, err := f.Take(timed(t), 0)
		waiting <- err
	}()
	time.Sleep(50 * time.Millisecond)
	for i := 0; i < 2; i++ {
		checkError(t, "close", f.Close(), nil)
	}
	checkError(t, "a wait", <-waiting, ErrClosed)
	_, err := f.Offer("http://a.test/")
	checkError(t, "an offer", err, ErrClosed)
}

func TestContext(t *testing.T) {
	f := open(t, Options{Workers: 1})
	ctx, cancel := context.WithTimeout(context.Background(), 50*time.Millisecond)
	defer cancel()
	_, err := f.Take(ctx, 0)
	checkError(t, "a wait", err, context.DeadlineExceeded)
	checkError(t, "a crawl", f.Run(ctx, nil), context.DeadlineExceeded)
	check(t, "an offer after that", offer(t, f, "http://a.test/"), []Status{Accepted})

	// The context of the frontier, while the program does not answer.
	ctx, cancel = context.WithCancel(context.Background())
	g, err := Open(ctx, Options{Workers: 1})
	checkError(t, "open", err, nil)
	syscall.Kill(g.cmd.Process.Pid, syscall.SIGSTOP)
	time.AfterFunc(50*time.Millisecond, cancel)
	_, err = g.Offer("http://a.test/")
	checkError(t, "an offer", err, context.Canceled)
	checkError(t, "close", g.Close(), context.Canceled)
	_, err = Open(ctx, Options{Workers: 1})
	checkError(t, "open", err, context.Canceled)
}

func TestProgramThatCannotStart(t *testing.T) {
	_, err := Open(context.Background(), Options{Program: "/no/such/program"})
	checkError(t, "no program", err, fs.ErrNotExist)
	_, err = Open(context.Background(), Options{Program: "no-such-program"})
	checkError(t, "no program", err, exec.ErrNotFound)
	for _, workers := range []int{513, -1} {
		var exit *exec.ExitError
		_, err = Open(context.Background(), Options{Workers: workers})
		if !errors.As(err, &exit) || exit.ExitCode() != 3 || !strings.Contains(err.Error(), fmt.Sprint(workers)) {
			t.Fatalf("%d workers: %v", workers, err)
		}
	}
}

func TestWrongAnswers(t *testing.T) {
	for _, text := range []string{
		"while read -r line; do echo perhaps; done",
		"while read -r line; do printf 'refused nothing\\nseen\\n'; done",
		"read -r line; echo refused nothing; while read -r line; do echo accepted 7; done",
		"read -r line; echo refused nothing; while read -r line; do echo accepted 7 0; done",
		"read -r line; echo refused nothing; while read -r line; do echo count x; done",
	} {
		f, err := Open(context.Background(), Options{Workers: 1, Program: script(t, text)})
		if err == nil {
			_, err = f.Offer("http://a.test/")
			checkError(t, "an offer", err, ErrUnknownAnswer)
			_, err = f.Take(timed(t), 0)
			f.Close()
		}
		checkError(t, text, err, ErrUnknownAnswer)
	}
}

// A write fails with EPIPE while the program still runs.
func TestProgramThatClosesItsInput(t *testing.T) {
	text := "read -r line; echo refused nothing; exec 0<&-; sleep 0.5; echo full >&2; exit 7"
	f, err := Open(context.Background(), Options{Workers: 1, Program: script(t, text)})
	checkError(t, "open", err, nil)
	time.Sleep(200 * time.Millisecond)
	for i := 0; i < 2; i++ {
		var exit *exec.ExitError
		_, err = f.Offer("http://a.test/")
		if !errors.As(err, &exit) || exit.ExitCode() != 7 || !strings.Contains(err.Error(), "full") {
			t.Fatalf("error %v", err)
		}
	}
}

func TestHalfAnAnswer(t *testing.T) {
	text := "read -r line; echo refused nothing; read -r line; printf 'taken http://a.test/lon'; exit 1"
	f, err := Open(context.Background(), Options{Workers: 1, Program: script(t, text)})
	checkError(t, "open", err, nil)
	url, err := f.Take(timed(t), 0)
	if url != "" || err == nil {
		t.Fatalf("%q, %v", url, err)
	}
}

func TestMuchOnStandardError(t *testing.T) {
	program := script(t, `yes warning | head -c 300000 >&2; exec "$MERCATOR" "$@"`)
	f := open(t, Options{Workers: 1, Program: program})
	check(t, "an offer", offer(t, f, "http://a.test/"), []Status{Accepted})
}

// More requests and answers than a pipe holds.
func TestManyLinks(t *testing.T) {
	f := open(t, Options{Workers: 3})
	const count = 5000
	for _, size := range []uintptr{65536, 4096} {
		setPipeSize(t, f.stdin.(syscall.Conn), size)
		var texts []string
		for i := 0; i < count; i++ {
			texts = append(texts, fmt.Sprintf("//h%d.test/%d/%d", i%50, size, i))
		}
		statuses, err := f.Links("http://a.test/", texts...)
		checkError(t, "links", err, nil)
		for i, status := range statuses {
			check(t, texts[i], status, Accepted)
		}
		// Each of these answers is longer than its request.
		for i := range texts {
			texts[i] = "a:"
		}
		for _, status := range offer(t, f, texts...) {
			check(t, "a:", status, NotHTTP)
		}
		check(t, "a long URL", offer(t, f, fmt.Sprint("http://a.test/", size, strings.Repeat("x", 4000))), []Status{Accepted})
	}
}

func setPipeSize(t *testing.T, pipe syscall.Conn, size uintptr) {
	t.Helper()
	const setPipeSize = 1031 // F_SETPIPE_SZ
	raw, err := pipe.SyscallConn()
	checkError(t, "the pipe", err, nil)
	checkError(t, "the pipe", raw.Control(func(fd uintptr) {
		if _, _, errno := syscall.Syscall(syscall.SYS_FCNTL, fd, setPipeSize, size); errno != 0 {
			t.Error(errno)
		}
	}), nil)
}

func TestOffersOfManyGoroutines(t *testing.T) {
	f := open(t, Options{Workers: 1})
	var group sync.WaitGroup
	for i := 0; i < 20; i++ {
		group.Add(1)
		go func(i int) {
			defer group.Done()
			for j := 0; j < 200; j++ {
				if statuses, err := f.Offer(fmt.Sprintf("http://a.test/%d/%d", i, j)); err != nil || statuses[0] != Accepted {
					t.Errorf("%v, %v", statuses, err)
				}
			}
		}(i)
	}
	group.Wait()
}

// A tree of 3 + 9 + 27 + 81 pages below each seed, on seven hosts.
func childrenOf(url string) []string {
	path := url[strings.LastIndex(url, "/"):]
	var children []string
	for i := 0; i < 3 && len(path) < 5; i++ {
		children = append(children, fmt.Sprintf("http://h%d.test%s%d", (len(path)+i)%7, path, i))
	}
	return children
}

func TestNoURLIsLostForLackOfRoom(t *testing.T) {
	seeds := []string{"http://h0.test/", "http://h1.test/"}
	reached := map[string]int{}
	for found := seeds; len(found) > 0; found = found[1:] {
		if reached[found[0]] == 0 {
			reached[found[0]] = 1
			found = append(found[:len(found):len(found)], childrenOf(found[0])...)
		}
	}
	for _, most := range []int64{1, 2, 3, 10} {
		for _, workers := range []int{1, 2, 7} {
			f := open(t, Options{Workers: workers, MaxPending: most})
			offer(t, f, seeds...)
			checkError(t, "the end of the seeds", f.EndSeeds(), nil)
			var mutex sync.Mutex
			fetched := map[string]int{}
			err := f.Run(timed(t), func(_ context.Context, _ int, url string) error {
				mutex.Lock()
				fetched[url]++
				mutex.Unlock()
				_, err := f.Links(url, childrenOf(url)...)
				return err
			})
			checkError(t, "the crawl", err, nil)
			if !reflect.DeepEqual(fetched, reached) {
				t.Fatalf("--max-pending %d, %d workers: %d of %d URLs", most, workers, len(fetched), len(reached))
			}
			f.Close()
		}
	}
}

func TestFailedVisit(t *testing.T) {
	f := open(t, Options{Workers: 7})
	const count = 50
	for i := 0; i < count; i++ {
		offer(t, f, fmt.Sprintf("http://h%d.test/", i))
	}
	failure := errors.New("mine")
	running := make(chan struct{}, count)
	err := f.Run(timed(t), func(ctx context.Context, queue int, url string) error {
		running <- struct{}{}
		if len(running) > 1 {
			return failure
		}
		<-ctx.Done() // the context of the others is canceled
		return ctx.Err()
	})
	checkError(t, "the crawl", err, failure)
	if !strings.Contains(err.Error(), ".test/") {
		t.Fatalf("no URL in: %v", err)
	}
	// An io.EOF of a visit is an error like others.
	g := open(t, Options{Workers: 1})
	offer(t, g, "http://a.test/")
	err = g.Run(timed(t), func(context.Context, int, string) error { return io.EOF })
	if err == nil || err == io.EOF {
		t.Fatalf("error %v", err)
	}
}

func TestLog(t *testing.T) {
	ctx := timed(t)
	log := filepath.Join(t.TempDir(), "crawl.log")
	options := Options{Workers: 1, Log: log, Sync: true}
	first := open(t, options)
	offer(t, first, "http://a.test/", "http://a.test/2", "http://a.test/3")
	check(t, "the first URL", take(t, first, 0), "http://a.test/")
	time.AfterFunc(300*time.Millisecond, func() { first.Close() })
	second := open(t, options)
	check(t, "the URL that was in progress", take(t, second, 0), "http://a.test/")
	_, err := second.Take(ctx, 0)
	checkError(t, "a URL too soon", err, ErrQueueBusy)
	_, err = second.Later(0)
	checkError(t, "later", err, nil)
	check(t, "the next URL", take(t, second, 0), "http://a.test/2")
	second.Close()

	third := open(t, options)
	checkError(t, "the end of the seeds", third.EndSeeds(), nil)
	var urls []string
	checkError(t, "the crawl", third.Run(ctx, func(_ context.Context, _ int, url string) error {
		urls = append(urls, url)
		return nil
	}), nil)
	check(t, "URLs", urls, []string{"http://a.test/2", "http://a.test/3", "http://a.test/"})

	short, cancel := context.WithTimeout(ctx, 200*time.Millisecond)
	defer cancel()
	_, err = Open(short, options)
	checkError(t, "a log in use, for a short time", err, context.DeadlineExceeded)
	_, err = Open(ctx, options)
	checkError(t, "a log in use", err, ErrLogInUse)
	if !strings.Contains(err.Error(), log) {
		t.Fatalf("no log in: %v", err)
	}
	third.Close()
	for _, wrong := range []Options{
		{Workers: 2, Log: log}, {Log: filepath.Join(t.TempDir(), "none", "log")}, {Log: t.TempDir()},
	} {
		var exit *exec.ExitError
		if _, err := Open(ctx, wrong); !errors.As(err, &exit) || exit.ExitCode() != 1 {
			t.Fatalf("%v: %v", wrong, err)
		}
	}
}

const killedLink = "link http://a.test/ page/%04d"

// A crawler that sends links to a program that does not read them, over a small pipe.
func crawlToBeKilled(log string) {
	t := new(testing.T)
	f := open(t, Options{Workers: 1, Log: log})
	setPipeSize(t, f.stdin.(syscall.Conn), 4096)
	syscall.Kill(f.cmd.Process.Pid, syscall.SIGSTOP)
	fmt.Println(f.cmd.Process.Pid)
	var texts []string
	for i := 0; i < 1000; i++ {
		texts = append(texts, strings.TrimPrefix(fmt.Sprintf(killedLink, i), "link http://a.test/ "))
	}
	f.Links("http://a.test/", texts...)
}

// The program would read the beginning of a request as a request.
func TestKillCutsNoRequestOff(t *testing.T) {
	log := filepath.Join(t.TempDir(), "crawl.log")
	crawler := exec.Command(os.Args[0])
	crawler.Env = append(os.Environ(), "CRAWL_TO_BE_KILLED="+log)
	stdout, err := crawler.StdoutPipe()
	checkError(t, "the crawler", err, nil)
	checkError(t, "the crawler", crawler.Start(), nil)
	var pid int
	_, err = fmt.Fscan(stdout, &pid)
	checkError(t, "the program", err, nil)
	time.Sleep(time.Second) // until the pipe is full
	crawler.Process.Signal(syscall.SIGSTOP)
	syscall.Kill(pid, syscall.SIGCONT)
	var links []string
	for end := time.Now().Add(limit); len(links) == 0 && time.Now().Before(end); {
		links = linksIn(t, log)
	}
	time.Sleep(200 * time.Millisecond) // until the program has answered these, and reads
	crawler.Process.Kill()
	crawler.Wait()
	open(t, Options{Workers: 1, Log: log}).Close() // the program has ended
	for i, line := range linksIn(t, log) {
		check(t, "a request", line, fmt.Sprintf(killedLink, i))
	}
	if len(links) == 0 {
		t.Fatal("no request was sent")
	}
}

func linksIn(t *testing.T, log string) (links []string) {
	t.Helper()
	text, err := os.ReadFile(log)
	checkError(t, "the log", err, nil)
	for _, line := range strings.Split(string(text), "\n") {
		if strings.HasPrefix(line, "link") {
			links = append(links, line)
		}
	}
	return links
}

func TestNamesThatBeginLikeOptions(t *testing.T) {
	before, err := os.Getwd()
	if err != nil {
		t.Fatal(err)
	}
	defer os.Chdir(before)
	os.Chdir(t.TempDir())
	for _, status := range []Status{Accepted, Seen} {
		f := open(t, Options{Workers: 1, Within: "-a.test", Log: "--x"})
		check(t, "offers", offer(t, f, "http://b.-a.test/", "http://a.test/"), []Status{status, Filtered})
		f.Close()
	}
}

// Ctrl-C in a terminal reaches the processes of its foreground group.
func TestSession(t *testing.T) {
	f := open(t, Options{Workers: 1})
	group, err := syscall.Getpgid(f.cmd.Process.Pid)
	checkError(t, "the group", err, nil)
	check(t, "the group", group, f.cmd.Process.Pid)
}
