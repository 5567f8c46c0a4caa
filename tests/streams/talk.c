/* Talks to the reader's program over two pipes: talk SIZE NAME.bin NAME.txt COMMAND..
 * Sends pieces of SIZE bytes, and after each waits for the line of every record that is whole by then. A program that
 * has stopped must have closed its output while its input is still open. */
#define _POSIX_C_SOURCE 200809L

#include "records.h"

#include "../compare/arguments.h"

#include <signal.h>
#include <stdlib.h>
#include <string.h>
#include <sys/wait.h>
#include <unistd.h>

/* Far longer than any answer takes, so that it passes only if none comes. */
#define SECONDS 30

typedef struct text {
    char *bytes;
    size_t count;
} text;

static void fail(const char *what, const char *name)
{
    fprintf(stderr, "talk: %s %s\n", what, name);
    exit(1);
}

static void no_answer(int number)
{
    static const char words[] = "talk: no answer\n";
    (void)number;
    if (write(STDERR_FILENO, words, sizeof words - 1) < 0)
        _exit(2);
    _exit(1);
}

static text all_of(const char *path)
{
    text t = {NULL, 0};
    FILE *file = fopen(path, "rb");
    if (!file || fseek(file, 0, SEEK_END) != 0)
        fail("cannot read", path);
    t.count = (size_t)ftell(file);
    rewind(file);
    t.bytes = malloc(t.count + 1);
    if (!t.bytes || fread(t.bytes, 1, t.count, file) != t.count)
        fail("cannot read", path);
    fclose(file);
    return t;
}

/* Where so many lines from `at` on end. */
static size_t end_of(const text *t, size_t at, size_t lines)
{
    for (size_t n = 0; n < lines && at < t->count; n++)
        at += strcspn(t->bytes + at, "\n") + 1;
    return at;
}

/* The program's output from `from` to `to`, which is what `expected` has there. */
static void hear(int output, const text *expected, size_t from, size_t to, const char *name)
{
    char room[4096];
    while (from < to) {
        size_t most = to - from < sizeof room ? to - from : sizeof room;
        alarm(SECONDS);
        ssize_t got = read(output, room, most);
        alarm(0);
        if (got <= 0)
            fail("the output ends too soon for", name);
        if (memcmp(room, expected->bytes + from, (size_t)got) != 0)
            fail("another answer for", name);
        from += (size_t)got;
    }
}

static void hear_the_end(int output, const char *name)
{
    char more;
    alarm(SECONDS);
    if (read(output, &more, 1) != 0)
        fail("more output than expected for", name);
    alarm(0);
}

static void send(int input, const char *bytes, size_t count, const char *name)
{
    while (count > 0) {
        ssize_t sent = write(input, bytes, count);
        if (sent <= 0)
            fail("cannot send", name);
        bytes += sent;
        count -= (size_t)sent;
    }
}

int main(int count, char **words)
{
    if (count < 5) {
        fprintf(stderr, "usage: talk SIZE NAME.bin NAME.txt COMMAND..\n");
        return 2;
    }
    const char *name = words[2];
    size_t size = (size_t)number_argument("talk", "SIZE", words[1]);
    text records = all_of(name), expected = all_of(words[3]);
    expected.bytes[expected.count] = 0;
    int input[2], output[2];
    if (size == 0 || pipe(input) != 0 || pipe(output) != 0)
        fail("no pipes for", name);
    pid_t program = fork();
    if (program == 0) {
        dup2(input[0], STDIN_FILENO);
        dup2(output[1], STDOUT_FILENO);
        close(input[0]), close(input[1]), close(output[0]), close(output[1]);
        execv(words[4], words + 4);
        fail("cannot run", words[4]);
    }
    close(input[0]), close(output[1]);
    struct sigaction late = {.sa_handler = no_answer};
    sigaction(SIGALRM, &late, NULL);

    size_t sent = 0, heard = 0;
    while (sent < records.count && heard < expected.count) {
        size_t piece = records.count - sent < size ? records.count - sent : size;
        send(input[1], records.bytes + sent, piece, name);
        size_t whole = (sent + piece) / RECORD_BYTES - sent / RECORD_BYTES;
        sent += piece;
        size_t so_far = end_of(&expected, heard, whole);
        hear(output[0], &expected, heard, so_far, name);
        heard = so_far;
    }
    if (heard == expected.count)
        hear_the_end(output[0], name);
    close(input[1]);
    hear(output[0], &expected, heard, expected.count, name);
    hear_the_end(output[0], name);
    int status;
    if (waitpid(program, &status, 0) != program || status != 0)
        fail("the program did not end well on", name);
    return 0;
}
