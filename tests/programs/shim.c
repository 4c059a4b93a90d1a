/* Put before the C library (LD_PRELOAD), makes a program's reads and its writes on descriptor 1 do what a script says, and counts
   them. The script is a list of NAME=NUMBER, separated by single spaces:

   read_short=K    a call moves at most K bytes
   read_again=K    K calls are interrupted before each one that goes through
   read_every=K    each K-th call is interrupted
   read_stop=N     when N bytes were moved one call fails, and never again
   read_error=E    that call's error number; with 0 it moves 0 bytes

   for the reads of descriptor 0, and the same for `write`, and for `maker` and `site`: the reads of the file that is read first
   and of the other one. */
#define _XOPEN_SOURCE 700
#include "shim.h"

#include <errno.h>
#include <fcntl.h>
#include <limits.h>
#include <stdbool.h>
#include <stdlib.h>
#include <string.h>
#include <sys/mman.h>
#include <sys/stat.h>
#include <sys/uio.h>
#include <unistd.h>

/* The calls on one stream: what the script says of them, and how far they are. */
struct side {
    unsigned long piece, again, every, stop, error;
    unsigned long calls, refused, moved;
    bool ended;
};

enum { READING, WRITING, MAKER, SITE, SIDES };

static struct side sides[SIDES];
static struct report *report;

/* Which of these words the script goes on with; it moves behind the word. */
static size_t next_word(const char **script, const char *const *words, size_t count)
{
    size_t i;
    for (i = 0; strncmp(*script, words[i], strlen(words[i])) != 0;)
        if (++i == count)
            _exit(99);
    *script += strlen(words[i]);
    return i;
}

static void read_script(const char *script)
{
    static const char *const names[SIDES] = {"read_", "write_", "maker_", "site_"};
    static const char *const settings[] = {"short=", "again=", "every=", "stop=", "error="};
    char *end;
    while (*script != '\0') {
        struct side *side = &sides[next_word(&script, names, SIDES)];
        unsigned long *const numbers[] = {&side->piece, &side->again, &side->every, &side->stop, &side->error};
        size_t i = next_word(&script, settings, sizeof settings / sizeof *settings);
        *numbers[i] = strtoul(script, &end, 10);
        script = *end == ' ' ? end + 1 : end;
    }
}

/* At the first call. A shim that cannot work ends the program. */
static void set_up(void)
{
    const char *script = getenv(SHIM_SCRIPT), *name = getenv(SHIM_REPORT);
    int file = name == NULL ? -1 : open(name, O_RDWR | O_CLOEXEC), i;
    void *place = file < 0 ? MAP_FAILED : mmap(NULL, sizeof *report, PROT_READ | PROT_WRITE, MAP_SHARED, file, 0);
    if (script == NULL || place == MAP_FAILED)
        _exit(99);
    close(file);
    report = place;
    for (i = 0; i < SIDES; i++)
        sides[i].stop = ULONG_MAX;
    read_script(script);
}

/* False if the script lets no byte through in this call, which then returns `answer`. Otherwise it is for `size`
   bytes. */
static bool goes_through(struct side *side, size_t *size, ssize_t *answer)
{
    side->calls++;
    *answer = -1;
    if (side->refused < side->again || (side->every > 0 && side->calls % side->every == 0)) {
        side->refused++;
        report->interrupted++;
        errno = EINTR;
        return false;
    }
    side->refused = 0;
    if (side->moved == side->stop) {
        side->stop = ULONG_MAX;
        if (side->error == 0)
            *answer = 0;
        else
            errno = (int)side->error;
        return false;
    }
    if (side->piece > 0 && *size > side->piece)
        *size = side->piece;
    if (*size > side->stop - side->moved)
        *size = side->stop - side->moved;
    return true;
}

static bool has_failed(ssize_t answer)
{
    return answer == 0 || (answer < 0 && errno != EINTR);
}

/* The file that is read first is the maker's, any other one the site's. */
static struct side *side_of(int descriptor)
{
    static struct stat first;
    struct stat file;
    if (descriptor == 0)
        return &sides[READING];
    if (fstat(descriptor, &file) < 0)
        _exit(99);
    if (report->file_reads == 0)
        first = file;
    return &sides[file.st_dev == first.st_dev && file.st_ino == first.st_ino ? MAKER : SITE];
}

ssize_t read(int descriptor, void *bytes, size_t size)
{
    struct iovec part = {bytes, size};
    struct side *side;
    ssize_t answer;
    if (report == NULL)
        set_up();
    side = side_of(descriptor);
    *(descriptor == 0 ? &report->reads : &report->file_reads) += 1;
    report->after_end += side->ended;
    report->after_failed_read += report->failed_reads > 0;
    report->after_failed_write += report->failed_writes > 0;
    if (goes_through(side, &part.iov_len, &answer))
        answer = readv(descriptor, &part, 1);
    if (answer > 0)
        side->moved += (unsigned long)answer;
    side->ended = side->ended || answer == 0;
    report->ended += answer == 0 && descriptor == 0;
    report->failed_reads += answer != 0 && has_failed(answer);
    return answer;
}

ssize_t write(int descriptor, const void *bytes, size_t size)
{
    struct iovec part = {(void *)bytes, size};
    ssize_t answer;
    if (descriptor != 1 || size == 0)
        return writev(descriptor, &part, 1);
    if (report == NULL)
        set_up();
    report->writes++;
    report->after_failed_write += report->failed_writes > 0;
    if (goes_through(&sides[WRITING], &part.iov_len, &answer))
        answer = writev(1, &part, 1);
    if (answer > 0)
        sides[WRITING].moved += (unsigned long)answer;
    report->failed_writes += has_failed(answer);
    return answer;
}
