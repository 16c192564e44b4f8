/* A client of `mercator serve` over pipes, for bench/serve.sh.
 *
 *     serve_client new COUNT PROGRAM ARG..     offers COUNT URLs, ahead of their answers
 *     serve_client seen COUNT PROGRAM ARG..    offers them, and measures offering them again
 *     serve_client single COUNT PROGRAM ARG..  offers COUNT URLs, each after the previous answer
 *     serve_client polled COUNT PROGRAM ARG..  the same, and polls for the answer
 *     serve_client line COUNT PROGRAM ARG..    sends a line of COUNT bytes
 *     serve_client print COUNT                 prints the requests of `new`
 *     serve_client echo                        only answers; for `single` instead of PROGRAM
 *
 * It prints the elapsed nanoseconds, the CPU nanoseconds of the program in this time, and the peak
 * resident memory of the program in bytes. Every answer is read; if one is not as expected, the
 * client exits with status 1. The URLs have 35 bytes and 997 hosts. */

#define _GNU_SOURCE
#include <errno.h>
#include <fcntl.h>
#include <poll.h>
#include <signal.h>
#include <stdio.h>
#include <stdlib.h>
#include <string.h>
#include <sys/resource.h>
#include <sys/types.h>
#include <sys/wait.h>
#include <time.h>
#include <unistd.h>

enum { LINE = 6 + 35 + 1, HOSTS = 997, CHUNK = 65536 };

struct server {
    pid_t pid;
    int requests; /* the pipe that it reads */
    int answers;  /* the pipe that it writes */
};

static void fail(const char *what)
{
    fprintf(stderr, "serve_client: %s\n", what);
    exit(1);
}

/* Starts the program with both pipes. This is done before the client allocates memory, which would
 * count as that of the program until it runs. */
static struct server start(char **words)
{
    int in[2], out[2];
    if (pipe2(in, O_CLOEXEC) != 0 || pipe2(out, O_CLOEXEC) != 0)
        fail("no pipe");
    pid_t pid = fork();
    if (pid < 0)
        fail("no process");
    if (pid == 0) {
        dup2(in[0], STDIN_FILENO);
        dup2(out[1], STDOUT_FILENO);
        execvp(words[0], words);
        _exit(127);
    }
    close(in[0]);
    close(out[1]);
    return (struct server){pid, in[1], out[0]};
}

static void write_all(int file, const char *bytes, size_t count)
{
    while (count > 0) {
        ssize_t written = write(file, bytes, count);
        if (written < 0 && errno == EINTR)
            continue;
        if (written <= 0)
            fail("the program reads no more");
        bytes += written;
        count -= written;
    }
}

/* Reads an answer of at most 79 bytes, without its line end. */
static void read_answer(int file, char *answer)
{
    size_t count = 0;
    while (count == 0 || answer[count - 1] != '\n') {
        ssize_t got = count < 79 ? read(file, answer + count, 79 - count) : 0;
        if (got < 0 && (errno == EINTR || errno == EAGAIN))
            continue;
        if (got <= 0)
            fail("no answer");
        count += got;
    }
    answer[count - 1] = 0;
}

static void expect(struct server *server, const char *start)
{
    char answer[80];
    read_answer(server->answers, answer);
    if (strncmp(answer, start, strlen(start)) != 0)
        fail(answer);
}

/* Makes the requests that offer COUNT URLs. */
static char *offers(size_t count)
{
    char *lines = malloc(count * LINE + 1);
    if (lines == NULL)
        fail("out of memory");
    for (size_t number = 0; number < count; number++)
        sprintf(lines + number * LINE, "offer http://h%03zu.example.test/p%09zu\n",
                number % HOSTS, number);
    return lines;
}

/* Counts the answers in the bytes that were read; each has to begin with a letter. `begins` is
 * whether the next byte begins an answer. */
static size_t answers_in(const char *bytes, size_t count, char letter, int *begins)
{
    size_t ended = 0;
    for (size_t at = 0; at < count; at++) {
        if (*begins && bytes[at] != letter)
            fail("an answer of another kind");
        *begins = bytes[at] == '\n';
        ended += *begins;
    }
    return ended;
}

/* Sends COUNT requests ahead of their answers, as far as the pipes have room, and reads these. */
static void pipeline(struct server *server, const char *lines, size_t count, char letter)
{
    static char read_bytes[CHUNK];
    size_t size = count * LINE, sent = 0, answered = 0;
    int begins = 1;
    fcntl(server->requests, F_SETFL, O_NONBLOCK);
    while (answered < count) {
        struct pollfd files[2] = {{server->answers, POLLIN, 0}, {server->requests, POLLOUT, 0}};
        if (poll(files, sent < size ? 2 : 1, -1) < 0 && errno != EINTR)
            fail("no poll");
        if (files[1].revents != 0) {
            size_t most = size - sent < CHUNK ? size - sent : CHUNK;
            ssize_t written = write(server->requests, lines + sent, most);
            if (written < 0 && errno != EAGAIN && errno != EINTR)
                fail("the program reads no more");
            sent += written > 0 ? written : 0;
        }
        if (files[0].revents != 0) {
            ssize_t got = read(server->answers, read_bytes, CHUNK);
            if (got <= 0)
                fail("no answer");
            answered += answers_in(read_bytes, got, letter, &begins);
        }
    }
    fcntl(server->requests, F_SETFL, 0);
}

static void one_by_one(struct server *server, const char *lines, size_t count)
{
    for (size_t number = 0; number < count; number++) {
        write_all(server->requests, lines + number * LINE, LINE);
        expect(server, "accepted");
    }
}

/* Answers each read immediately, without any work: the time of `single` is then only that of the
 * pipes and the system. */
static int echo(void)
{
    char line[LINE];
    while (read(STDIN_FILENO, line, LINE) > 0) {
        const char *answer = line[0] == 'o' ? "accepted 0 000000\n" : "refused nothing\n";
        write_all(STDOUT_FILENO, answer, strlen(answer));
    }
    return 0;
}

static void long_line(struct server *server, size_t count)
{
    static char bytes[CHUNK];
    memset(bytes, 'x', CHUNK);
    for (size_t left = count; left > 0;) {
        size_t most = left < CHUNK ? left : CHUNK;
        write_all(server->requests, bytes, most);
        left -= most;
    }
    write_all(server->requests, "\n", 1);
    expect(server, "line too long");
}

static long long nanoseconds(clockid_t clock)
{
    struct timespec now;
    if (clock_gettime(clock, &now) != 0)
        fail("no clock");
    return now.tv_sec * 1000000000LL + now.tv_nsec;
}

/* Ends the program by closing its input, and returns its peak resident memory. */
static long long peak_at_end(struct server *server)
{
    int status;
    struct rusage usage;
    close(server->requests);
    if (wait4(server->pid, &status, 0, &usage) != server->pid || status != 0)
        fail("the program did not end well");
    return usage.ru_maxrss * 1024LL;
}

static void measure(struct server *server, const char *mode, const char *lines, size_t count)
{
    if (strcmp(mode, "new") == 0)
        pipeline(server, lines, count, 'a');
    else if (strcmp(mode, "seen") == 0)
        pipeline(server, lines, count, 's');
    else if (strcmp(mode, "single") == 0)
        one_by_one(server, lines, count);
    else if (strcmp(mode, "polled") == 0 && fcntl(server->answers, F_SETFL, O_NONBLOCK) == 0)
        one_by_one(server, lines, count);
    else if (strcmp(mode, "line") == 0)
        long_line(server, count);
    else
        fail("no such mode");
}

int main(int argc, char **argv)
{
    if (argc > 1 && strcmp(argv[1], "echo") == 0)
        return echo();
    if (argc < 3 || (argc < 4 && strcmp(argv[1], "print") != 0))
        fail("usage: serve_client new|seen|single|polled|line|print COUNT PROGRAM WORD.., or echo");
    const char *mode = argv[1];
    size_t count = strtoull(argv[2], NULL, 10);
    if (strcmp(mode, "print") == 0) {
        write_all(STDOUT_FILENO, offers(count), count * LINE);
        return 0;
    }
    signal(SIGPIPE, SIG_IGN);
    struct server server = start(argv + 3);
    char *lines = strcmp(mode, "line") == 0 ? NULL : offers(count);
    write_all(server.requests, "done 0\n", 7); /* after the answer, the program has started */
    expect(&server, "refused nothing");
    if (strcmp(mode, "seen") == 0)
        pipeline(&server, lines, count, 'a');
    clockid_t processor;
    if (clock_getcpuclockid(server.pid, &processor) != 0)
        fail("no clock of the program");
    long long began = nanoseconds(CLOCK_MONOTONIC), worked = nanoseconds(processor);
    measure(&server, mode, lines, count);
    long long passed = nanoseconds(CLOCK_MONOTONIC) - began;
    worked = nanoseconds(processor) - worked;
    printf("%lld %lld %lld\n", passed, worked, peak_at_end(&server));
    return 0;
}
