/* Stands in for the program in the tests of the sweep: it prints what it has read, to a full stop, each line from
   memory of its own. With the word `--orders`, and no number of workers, it ends by status 6.
   With WRONG it does one thing that the sweep has to find. */
#include <stdio.h>
#include <stdlib.h>
#include <string.h>
#include <unistd.h>

enum { NOTHING, FORGETS_A_REFUSAL, WRITES_ON, HANGS, HIDES_A_FAILED_READ, WRITES_FIRST, HIDES_A_STATUS };

#ifndef WRONG
#define WRONG NOTHING
#endif

static char script[4096];
static size_t length;

static void end(int status, const char *text)
{
    (void)!write(STDERR_FILENO, text, strlen(text));
    _exit(status);
}

static void read_all(void)
{
    ssize_t came;
    while ((came = read(STDIN_FILENO, script + length, sizeof script - length)) > 0)
        length += (size_t)came;
    if (came < 0 && WRONG != HIDES_A_FAILED_READ)
        end(4, "read failed\n");
    if (!memchr(script, '.', length))
        end(2, "script refused: 2 NotJson\n");
}

static void write_all(const char *bytes, size_t left)
{
    while (left > 0) {
        ssize_t took = write(STDOUT_FILENO, bytes, left);
        if (took <= 0 && WRONG == WRITES_ON)
            return;
        if (took <= 0)
            end(4, "write failed\n");
        bytes += took;
        left -= (size_t)took;
    }
}

/* how long the line is that begins here, with its end */
static size_t line_at(size_t at)
{
    const char *end = memchr(script + at, '\n', length - at);
    return end ? (size_t)(end - script) + 1 - at : length - at;
}

static void print_line(const char *line, size_t size)
{
    char *copy = malloc(size);
    if (!copy && WRONG == HANGS)
        for (;;)
            pause();
    if (!copy && WRONG == FORGETS_A_REFUSAL)
        return;
    if (!copy)
        end(3, "out of memory\n");
    memcpy(copy, line, size);
    write_all(copy, size);
    free(copy);
}

/* how it ends where all is printed */
static int status_for(int count, char **words)
{
    if (count < 2 || strcmp(words[1], "--orders") != 0)
        return 0;
    if (count > 2)
        end(64, "usage\n");
    return WRONG == HIDES_A_STATUS ? 0 : 6;
}

int main(int count, char **words)
{
    int status = status_for(count, words);
    if (WRONG == WRITES_FIRST)
        write_all("a\n", 2);
    read_all();
    for (size_t at = WRONG == WRITES_FIRST ? 2 : 0; at < length; at += line_at(at))
        print_line(script + at, line_at(at));
    return status;
}
