// Package frontier is a client of mercator serve, the URL frontier for crawlers. README.md shows how
// to use it, and docs/SESSION.md describes the protocol. URLs that are refused because too many are
// unfinished are kept in memory, and are offered again when there is room. A kill loses them.
package frontier

import (
	"bufio"
	"context"
	"errors"
	"fmt"
	"io"
	"os"
	"os/exec"
	"strings"
	"sync"
	"syscall"
	"time"
)

// The errors that a Frontier returns, also wrapped. If the program has failed, the error wraps an
// *exec.ExitError, and its text has the message of the program.
var (
	ErrClosed        = errors.New("frontier: closed by the crawler")
	ErrLogInUse      = errors.New("frontier: the log is in use")
	ErrNoSuchQueue   = errors.New("frontier: no such queue")
	ErrNothingTaken  = errors.New("frontier: the queue is not working on a URL")
	ErrQueueBusy     = errors.New("frontier: the last URL of the queue is in progress")
	ErrUnknownAnswer = errors.New("frontier: unknown answer")
	ErrLater         = errors.New("frontier: put the URL back") // a visit returns this
	errPending       = errors.New("frontier: the queue is empty")
)

// A request that is sent for any of more than 4,096 bytes. If a kill cuts it off, it is refused, too.
var tooLong = "offer " + strings.Repeat("x", 4091)

var refusals = map[string]error{ // by answer, without its number
	"pending":         errPending,
	"refused busy":    ErrQueueBusy,
	"refused nosuch":  ErrNoSuchQueue,
	"refused nothing": ErrNothingTaken,
	"closed":          io.EOF,
}

// Options are the options of a frontier. A crawl resumes only with the options that it began with.
type Options struct {
	Workers    int    // number of workers and queues, 1 to 512; 0 means 4
	MaxPending int64  // most URLs waiting or in progress at a time; 0 means the program's default
	Within     string // accept only hosts equal to this suffix or subdomains of it; "" means all
	Log        string // file that gets all requests, from which a crawl resumes; "" means none
	Sync       bool   // sync the log to disk before each answer
	Program    string // the program; "" means $MERCATOR, or else mercator on the PATH
}

// A Status says whether an offered URL was accepted, and if not, why.
type Status string

const (
	Accepted Status = "accepted"
	Seen     Status = "seen"     // it was accepted before, in this spelling or another
	Filtered Status = "filtered" // its host is outside Options.Within
	NotURL   Status = "not a URL"
	NotHTTP  Status = "not http or https"
	TooLong  Status = "line too long" // the request has more than 4,096 bytes
	NotUTF8  Status = "not UTF-8"
	Closed   Status = "refused closed" // the crawl is over
	Full     Status = "refused full"   // too many URLs are unfinished; it will be offered again
)

// Stats are numbers of URLs. Each accepted URL is done, in progress or waiting. PutBack is how many
// of the waiting ones were put back, and Seen how many offers were answered Seen.
type Stats struct {
	Accepted, Done, InProgress, Waiting, PutBack, Seen int
}

// A Frontier is a URL frontier that runs as a process of its own. Several goroutines may use it at
// the same time. Use Open to start one.
type Frontier struct {
	ctx    context.Context
	cmd    *exec.Cmd
	stdin  io.WriteCloser
	stdout *bufio.Reader
	stderr strings.Builder
	// mu is held from requests to their answers, and by the callers of the methods after Close.
	mu    sync.Mutex
	end   error           // why no request is answered any more, or nil
	wakes []chan struct{} // by queue: closed when a wait in this queue may be over
	begun map[int]bool    // by queue: whether a URL was taken from it
	kept  []string        // requests that were refused for lack of room
}

// Open starts a frontier. If the log exists, the crawl resumes. The program of a crawler that was
// killed may use the log a moment longer: the new program waits for it, and after ten seconds Open
// fails with ErrLogInUse. If ctx is done, also after Open has returned, the program is killed.
func Open(ctx context.Context, options Options) (*Frontier, error) {
	if options.Workers == 0 {
		options.Workers = 4
	}
	for _, program := range []string{os.Getenv("MERCATOR"), "mercator"} {
		if options.Program == "" {
			options.Program = program
		}
	}
	args := []string{"serve", fmt.Sprint("--workers=", options.Workers)}
	add := func(isGiven bool, words ...any) {
		if isGiven {
			args = append(args, fmt.Sprint(words...))
		}
	}
	add(options.MaxPending != 0, "--max-pending=", options.MaxPending)
	add(options.Within != "", "--within=", options.Within)
	add(options.Log != "", "--log=", options.Log)
	add(options.Log != "", "--wait=10")
	add(options.Sync, "--sync")
	f := &Frontier{ctx: ctx, begun: map[int]bool{}}
	f.cmd = exec.CommandContext(ctx, options.Program, args...)
	for len(f.wakes) < options.Workers {
		f.wakes = append(f.wakes, make(chan struct{}))
	}
	// In a session of its own, so that Ctrl-C reaches only the crawler.
	f.cmd.SysProcAttr = &syscall.SysProcAttr{Setsid: true}
	f.cmd.Stderr = &f.stderr
	stdout, err := f.cmd.StdoutPipe()
	if err != nil {
		return nil, err
	}
	f.stdout = bufio.NewReader(stdout)
	if f.stdin, err = f.cmd.StdinPipe(); err == nil {
		err = f.cmd.Start()
	}
	if err != nil {
		return nil, fmt.Errorf("frontier: cannot start the program: %w", err)
	}
	_, err = f.exchange([]string{"again 0"})
	var exit *exec.ExitError
	if errors.As(err, &exit) && exit.ExitCode() == 5 {
		err = fmt.Errorf("%w: %v", ErrLogInUse, err)
	}
	return f, err
}

// Offer offers URLs, such as seeds, in their order. There is one status per URL.
func (f *Frontier) Offer(urls ...string) ([]Status, error) {
	return f.offer("offer ", urls)
}

// Links offers the links of a page in their order. Call it before the page is done. The base is the
// URL of the page, or that of its <base>, and the texts are the links as they appear on it.
func (f *Frontier) Links(base string, texts ...string) ([]Status, error) {
	// In a request the base ends at its first space. The rest is what the URL Standard strips.
	base = strings.TrimFunc(base, func(r rune) bool { return r <= ' ' })
	base = strings.NewReplacer("\t", "", "\n", "", "\r", "", " ", "%20").Replace(base)
	return f.offer("link "+base+" ", texts)
}

func (f *Frontier) offer(word string, texts []string) ([]Status, error) {
	requests := make([]string, len(texts))
	for i, text := range texts {
		// The URL Standard removes line feeds, and a carriage return at the end.
		requests[i] = word + strings.TrimSuffix(strings.ReplaceAll(text, "\n", ""), "\r")
		if len(requests[i]) > 4096 {
			requests[i] = tooLong
		}
	}
	f.mu.Lock()
	defer f.mu.Unlock()
	return f.send(requests)
}

// EndSeeds says that all seeds were offered, so that the crawl can end. If the seeds had ended
// before, as they may have in a crawl that resumes, it does nothing.
func (f *Frontier) EndSeeds() error {
	if _, err := f.lower("endseeds"); err != ErrNothingTaken {
		return err
	}
	return nil
}

// Take takes the URL that has waited longest in a queue. If there is none, it waits until there is
// one, until the crawl is over, or until ctx is done. If the crawl is over, the error is io.EOF. In
// a crawl that resumes, the first URL of a queue is the one that was in progress.
func (f *Frontier) Take(ctx context.Context, queue int) (url string, err error) {
	f.mu.Lock()
	defer f.mu.Unlock()
	if !f.begun[queue] {
		f.begun[queue] = true
		if err = f.ask(fmt.Sprint("again ", uint32(queue)), "taken %s", &url); err != ErrNothingTaken {
			return url, err
		}
	}
	for ctx.Err() == nil {
		if err = f.ask(fmt.Sprint("next ", uint32(queue)), "taken %s", &url); err != errPending {
			return url, err
		}
		// No request was sent after the one that is pending, so no wake-up is lost.
		wake := f.wakes[queue]
		f.mu.Unlock()
		select {
		case <-wake:
		case <-ctx.Done():
		}
		f.mu.Lock()
	}
	return "", ctx.Err()
}

// Done says that a queue's URL is finished, fetched or not. It returns how many are unfinished.
func (f *Frontier) Done(queue int) (int, error) {
	return f.lower(fmt.Sprint("done ", uint32(queue)))
}

// Later puts a queue's URL back to the end of the queue. If no other waits, Take returns it again.
func (f *Frontier) Later(queue int) (int, error) {
	return f.lower(fmt.Sprint("later ", uint32(queue)))
}

// Arrival returns a channel that is closed when a URL is accepted into a queue, or all are done.
func (f *Frontier) Arrival(queue int) <-chan struct{} {
	f.mu.Lock()
	defer f.mu.Unlock()
	return f.wakes[queue]
}

// Stats returns the numbers of URLs in a queue, or in all queues if it is negative.
func (f *Frontier) Stats(queue int) (s Stats, err error) {
	request := "stats"
	if queue >= 0 {
		request = fmt.Sprint("stats ", uint32(queue))
	}
	f.mu.Lock()
	defer f.mu.Unlock()
	const form = "stats accepted %d done %d in-progress %d waiting %d put-back %d seen %d"
	err = f.ask(request, form, &s.Accepted, &s.Done, &s.InProgress, &s.Waiting, &s.PutBack, &s.Seen)
	return s, err
}

// Run calls visit for each URL until the crawl is over, for one URL at a time of each queue, and so
// of each host. If visit returns nil, the URL is done; if ErrLater, it is put back. If visit fails,
// or ctx is done, Run cancels the context of the visits, waits for them, and returns the first
// error. A URL whose visit failed stays in progress.
func (f *Frontier) Run(
	ctx context.Context, visit func(ctx context.Context, queue int, url string) error,
) error {
	ctx, cancel := context.WithCancel(ctx)
	defer cancel()
	work := func(queue int) (err error) {
		for err == nil {
			var url string
			if url, err = f.Take(ctx, queue); err != nil {
				return err
			}
			switch err = visit(ctx, queue, url); err {
			case nil:
				_, err = f.Done(queue)
			case ErrLater:
				_, err = f.Later(queue)
			default:
				return fmt.Errorf("frontier: visit of %s: %w", url, err)
			}
		}
		return err
	}
	errs := make(chan error)
	for queue := range f.wakes {
		go func(queue int) { errs <- work(queue) }(queue)
	}
	var first error
	for range f.wakes {
		if err := <-errs; err != io.EOF && first == nil {
			first = err
			cancel()
		}
	}
	return first
}

// Close ends the program. Calls that wait, and later ones, fail with ErrClosed. The error is nil if
// the program exited with status 0.
func (f *Frontier) Close() error {
	f.stdin.Close()
	defer time.AfterFunc(10*time.Second, func() { f.cmd.Process.Kill() }).Stop()
	f.mu.Lock()
	defer f.mu.Unlock()
	if err := f.ended(); err != ErrClosed {
		return err
	}
	return nil
}

// lower sends a request that may finish something, and then offers what was kept. No other request
// is sent meanwhile, so the crawl cannot end without the URLs that were kept.
func (f *Frontier) lower(request string) (unfinished int, err error) {
	f.mu.Lock()
	defer f.mu.Unlock()
	err = f.ask(request, "count %d", &unfinished)
	for queue := 0; err == nil && unfinished == 0 && queue < len(f.wakes); queue++ {
		f.wake(queue)
	}
	// The loop ends when an offer is refused again, and so kept. After Later, that is the first.
	for left := len(f.kept); err == nil && left > 0 && left == len(f.kept); left-- {
		offer := f.kept[:1]
		f.kept = f.kept[1:]
		_, err = f.send(offer)
	}
	return unfinished, err
}

// send offers URLs, and keeps those that are refused for lack of room.
func (f *Frontier) send(requests []string) ([]Status, error) {
	answers, err := f.exchange(requests)
	statuses := make([]Status, len(answers))
	for i, answer := range answers {
		statuses[i] = Status(answer)
		switch statuses[i] {
		case Seen, Filtered, NotURL, NotHTTP, TooLong, NotUTF8, Closed:
		case Full:
			f.kept = append(f.kept, requests[i])
		default:
			var queue, number uint
			n, _ := fmt.Sscanf(answer, "accepted %d %d", &queue, &number)
			if n < 2 || int(queue) >= len(f.wakes) {
				return nil, f.unknown(answer)
			}
			statuses[i] = Accepted
			f.wake(int(queue))
		}
	}
	return statuses, err
}

// wake ends the waits in a queue.
func (f *Frontier) wake(queue int) {
	close(f.wakes[queue])
	f.wakes[queue] = make(chan struct{})
}

// ask sends a request, and reads values from its answer, which must have this form.
func (f *Frontier) ask(request, form string, values ...any) error {
	answers, err := f.exchange([]string{request})
	if err == nil {
		err = refusals[strings.TrimRight(answers[0], " 0123456789")]
	}
	if err != nil {
		return err
	}
	if _, err := fmt.Sscanf(answers[0], form, values...); err != nil {
		return f.unknown(answers[0])
	}
	return nil
}

// exchange sends requests, each by a write of its own, which a kill does not cut off. Meanwhile it
// reads the answers, so that neither side waits for the other to read.
func (f *Frontier) exchange(requests []string) (answers []string, err error) {
	if f.end != nil {
		return nil, f.end
	}
	go func() {
		for _, request := range requests {
			io.WriteString(f.stdin, request+"\n") // if this fails, so does a read
		}
	}()
	for range requests {
		answer, err := f.stdout.ReadString('\n')
		if err != nil { // a last line without a line feed is not an answer
			return nil, f.ended()
		}
		answers = append(answers, answer[:len(answer)-1])
	}
	if f.stdout.Buffered() > 0 {
		return nil, f.unknown("more than one per request")
	}
	return answers, nil
}

// ended waits until the program has exited, ends all waits, and returns how it exited.
func (f *Frontier) ended() error {
	err := f.cmd.Wait()
	for queue := range f.wakes {
		f.wake(queue)
	}
	switch {
	case f.end != nil:
	case f.ctx.Err() != nil:
		f.end = f.ctx.Err()
	case err != nil:
		f.end = fmt.Errorf("frontier: %w: %s", err, strings.TrimSpace(f.stderr.String()))
	default:
		f.end = ErrClosed
	}
	return f.end
}

// unknown ends the program, since nobody knows what it means by this answer.
func (f *Frontier) unknown(answer string) error {
	f.end = fmt.Errorf("%w: %s", ErrUnknownAnswer, answer)
	f.cmd.Process.Kill()
	return f.ended()
}
