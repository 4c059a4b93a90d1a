/* The programs where reads and writes fail, are interrupted or move few bytes, and before clients that wait:
   `failures PROGRAMS SHIM REPORT` runs the programs that stand in PROGRAMS and prints the number of cases. What no real
   descriptor does is done by the shared object SHIM (shim.c), which is put before the C library; REPORT is a file that may be
   written, and so may others whose names begin with its name. What has to be printed is computed by the reference.

   A failing read or write is reported by one line on standard error; after it nothing is read and nothing printed. Of
   the input only what was read whole counts: the compiler and the decompiler print nothing for a part of their input, the
   engine and `explain` nothing for a part of a line. A file that cannot be opened or read whole is reported likewise, and nothing
   is printed. A call that is interrupted is made again. Where a reader goes away the write fails and is reported, whether or not
   the caller has the signal SIGPIPE ignored. */
#define _XOPEN_SOURCE 700
#include "../reference/inputs.h"
#include "shim.h"

#include <errno.h>
#include <fcntl.h>
#include <poll.h>
#include <signal.h>
#include <stdarg.h>
#include <stdlib.h>
#include <string.h>
#include <sys/ioctl.h>
#include <sys/mman.h>
#include <sys/stat.h>
#include <sys/wait.h>
#include <termios.h>
#include <time.h>
#include <unistd.h>

enum { CLOSED = -1, LIMIT = 10000 /* milliseconds for one case */, PIPE_BYTES = 65536 };

static const char *programs, *shim, *report_name;
static struct report *report;
static unsigned long cases;

/* The case at hand: its name, the program that runs, and when it has to be over. */
static char title[200];
static pid_t running;
static long deadline;

static void fail(const char *format, ...)
{
    va_list list;
    if (running > 0)
        kill(running, SIGKILL);
    printf("%s: ", title);
    va_start(list, format);
    vprintf(format, list);
    va_end(list);
    printf("\n");
    exit(1);
}

static long now(void)
{
    struct timespec time;
    clock_gettime(CLOCK_MONOTONIC, &time);
    return (long)time.tv_sec * 1000 + time.tv_nsec / 1000000;
}

static void begin(const char *format, ...)
{
    va_list list;
    va_start(list, format);
    vsnprintf(title, sizeof title, format, list);
    va_end(list);
    deadline = now() + LIMIT;
    cases++;
}

/* Milliseconds to the end of the case. */
static int time_left(void)
{
    long left = deadline - now();
    if (left <= 0)
        fail("not over within %d seconds", LIMIT / 1000);
    return (int)left;
}

/* Bytes */

struct bytes {
    char *at;
    size_t length;
};

static void append(struct bytes *to, const void *bytes, size_t length)
{
    to->at = realloc(to->at, to->length + length + 1);
    if (to->at == NULL)
        fail("no memory");
    memcpy(to->at + to->length, bytes, length);
    to->length += length;
    to->at[to->length] = '\0';
}

/* The first bytes, for a message. */
static const char *shown(const char *bytes, size_t length)
{
    static char lines[2][140];
    static int turn;
    char *line = lines[turn = 1 - turn], *at = line;
    size_t i;
    for (i = 0; i < length && i < 60; i++) {
        if (bytes[i] == '\n')
            *at++ = '\\';
        *at++ = bytes[i] == '\n' ? 'n' : bytes[i] >= ' ' && bytes[i] <= '~' ? bytes[i] : '?';
    }
    strcpy(at, i < length ? "..." : "");
    return line;
}

/* What is called: a program, and the names of two files with their texts if it is called with them. */
struct tool {
    const char *program;
    char *names[2];
    struct texts texts;
};

static const struct tool compiler = {.program = "compiler"}, decompiler = {.program = "decompiler"},
                         engine = {.program = "engine"};

static bool has_files(const struct tool *tool)
{
    return tool->names[0] != NULL;
}

/* Whether standard input is read: not by a compiler that has files, nor before questions about texts that are refused. */
static bool reads_input(const struct tool *tool)
{
    static struct policy policy;
    return !has_files(tool)
        || (strcmp(tool->program, "explain") == 0 && read_texts(NEWEST_FORM, tool->texts, &policy).fault == FAULT_NONE);
}

static struct bytes due_of(const struct tool *tool, const uint8_t *input, size_t length)
{
    struct bytes due = {NULL, 0};
    FILE *out = open_memstream(&due.at, &due.length);
    if (out == NULL)
        fail("no memory");
    if (has_files(tool))
        print_on_texts(tool->program, tool->texts, input, length, out);
    else
        print_program(tool->program, input, length, out);
    fclose(out);
    return due;
}

/* What is printed when the input breaks off after `length` bytes: by the engine the answers to whole lines behind a line
   `run` or `run events`, by `explain` those to whole lines, by others that read it nothing. */
static struct bytes due_of_part(const struct tool *tool, const uint8_t *input, size_t length)
{
    struct bytes none = {NULL, 0};
    size_t text, epochs;
    enum mode mode;
    while (length > 0 && input[length - 1] != '\n')
        length--;
    if (!has_files(tool) && (strcmp(tool->program, "engine") != 0 || !find_run(input, length, &text, &epochs, &mode)))
        return none;
    return due_of(tool, input, length);
}

/* Descriptors. A program gets none but those it is started with. */

static int keep(int descriptor)
{
    if (descriptor < 0 || fcntl(descriptor, F_SETFD, FD_CLOEXEC) < 0)
        fail("no descriptor: %s", strerror(errno));
    return descriptor;
}

static void make_pipe(int ends[2])
{
    if (pipe(ends) < 0)
        fail("no pipe: %s", strerror(errno));
    keep(ends[0]);
    keep(ends[1]);
}

static void set_nonblocking(int descriptor)
{
    if (fcntl(descriptor, F_SETFL, fcntl(descriptor, F_GETFL) | O_NONBLOCK) < 0)
        fail("%s", strerror(errno));
}

static void write_all(int to, const void *bytes, size_t length)
{
    if (write(to, bytes, length) != (ssize_t)length)
        fail("the input cannot be written: %s", strerror(errno));
}

static int open_file(const char *name, int flags)
{
    return keep(open(name, flags));
}

/* The name of a file that is not there. */
static char *new_name(void)
{
    static unsigned count;
    char *name = malloc(strlen(report_name) + 20);
    if (name == NULL)
        fail("no memory");
    sprintf(name, "%s.%u", report_name, ++count);
    unlink(name);
    return name;
}

/* The name of a file with these bytes. */
static char *named_file_of(const void *bytes, size_t length)
{
    char *name = new_name();
    int file = keep(open(name, O_WRONLY | O_CREAT | O_TRUNC, 0600));
    write_all(file, bytes, length);
    close(file);
    return name;
}

/* A program with two texts, which stand in files. */
static struct tool tool_on(const char *program, const struct buffer *maker, const struct buffer *site)
{
    struct tool tool = {program, {NULL, NULL}, texts_of(maker, site)};
    tool.names[0] = named_file_of(maker->bytes, maker->length);
    tool.names[1] = named_file_of(site->bytes, site->length);
    return tool;
}

/* A file with these bytes. */
static int file_of(const void *bytes, size_t length)
{
    FILE *file = tmpfile();
    if (file == NULL)
        fail("no file: %s", strerror(errno));
    write_all(fileno(file), bytes, length);
    return keep(fileno(file));
}

/* A pipe from which these bytes can be read, then no more while `*writer` is open. */
static int pipe_of(const void *bytes, size_t length, int *writer)
{
    int ends[2];
    make_pipe(ends);
    set_nonblocking(ends[1]);
    write_all(ends[1], bytes, length);
    *writer = ends[1];
    return ends[0];
}

/* How many bytes a pipe holds. */
static int held(int reader)
{
    int count;
    if (ioctl(reader, FIONREAD, &count) < 0)
        fail("%s", strerror(errno));
    return count;
}

/* Running a program */

struct setting {
    const char *program;
    int in, out; /* its descriptors 0 and 1, or CLOSED */
    const char *script; /* what the shim does; none: no shim */
    char *arguments[3];
    bool ignores_pipe; /* SIGPIPE is ignored */
};

static struct setting setting_of(const struct tool *tool)
{
    struct setting setting = {tool->program, CLOSED, CLOSED, NULL, {tool->names[0], tool->names[1], NULL}, false};
    return setting;
}

/* A program that was started: where its output and its errors are read, and what came of them. */
struct run {
    const char *program;
    int out, err;
    struct bytes printed, said;
    int status;
};

static void become(const struct setting *setting, int err)
{
    char path[4096];
    char *arguments[] = {path, setting->arguments[0], setting->arguments[1], setting->arguments[2], NULL};
    snprintf(path, sizeof path, "%s/%s", programs, setting->program);
    signal(SIGPIPE, setting->ignores_pipe ? SIG_IGN : SIG_DFL);
    if (setting->script != NULL) {
        setenv(SHIM_SCRIPT, setting->script, 1);
        setenv(SHIM_REPORT, report_name, 1);
        setenv("LD_PRELOAD", shim, 1);
    }
    dup2(err, 2);
    if (setting->in == CLOSED)
        close(0);
    else
        dup2(setting->in, 0);
    if (setting->out == CLOSED)
        close(1);
    else
        dup2(setting->out, 1);
    execv(path, arguments);
    _exit(98);
}

/* Starts a program. `out` is where its output is read by the case, or CLOSED. */
static struct run start(struct setting setting, int out)
{
    struct run run = {setting.program, out, CLOSED, {NULL, 0}, {NULL, 0}, 0};
    int ends[2];
    make_pipe(ends);
    run.err = ends[0];
    append(&run.printed, "", 0);
    append(&run.said, "", 0);
    memset(report, 0, sizeof *report);
    running = fork();
    if (running < 0)
        fail("no process: %s", strerror(errno));
    if (running == 0)
        become(&setting, ends[1]);
    close(ends[1]);
    return run;
}

/* Starts it with a pipe for its output. */
static struct run start_piped(struct setting setting)
{
    struct run run;
    int ends[2];
    make_pipe(ends);
    setting.out = ends[1];
    run = start(setting, ends[0]);
    close(ends[1]);
    return run;
}

/* Takes what is there of one stream, at most `limit` bytes. At its end it is closed. */
static void take(int *from, struct bytes *to, size_t limit)
{
    static char part[PIPE_BYTES];
    ssize_t count = read(*from, part, limit < sizeof part ? limit : sizeof part);
    if (count < 0)
        fail("%s", strerror(errno));
    append(to, part, (size_t)count);
    if (count == 0) {
        close(*from);
        *from = CLOSED;
    }
}

/* Waits for something on the two streams, or for room in the pipe `to`, at most so many milliseconds. True if there is
   room. */
static bool attend(struct run *run, int to, int milliseconds)
{
    struct pollfd polls[3] = {{run->out, POLLIN, 0}, {run->err, POLLIN, 0}, {to, POLLOUT, 0}};
    if (poll(polls, 3, milliseconds) < 0)
        fail("%s", strerror(errno));
    if (run->out != CLOSED && polls[0].revents != 0)
        take(&run->out, &run->printed, PIPE_BYTES);
    if (run->err != CLOSED && polls[1].revents != 0)
        take(&run->err, &run->said, PIPE_BYTES);
    return to != CLOSED && polls[2].revents != 0;
}

/* Collects what is printed and said until the program has ended. */
static void end(struct run *run)
{
    struct timespec moment = {0, 1000000};
    while (run->out != CLOSED || run->err != CLOSED)
        attend(run, CLOSED, time_left());
    while (waitpid(running, &run->status, WNOHANG) == 0) {
        time_left();
        nanosleep(&moment, NULL);
    }
    running = 0;
}

static void forget(struct run *run)
{
    free(run->printed.at);
    free(run->said.at);
}

/* Checks of what has ended */

static void check_status(const struct run *run)
{
    if (!WIFEXITED(run->status) || WEXITSTATUS(run->status) != 0)
        fail("ended by %s %d", WIFSIGNALED(run->status) ? "signal" : "status",
            WIFSIGNALED(run->status) ? WTERMSIG(run->status) : WEXITSTATUS(run->status));
}

static void check_printed(const struct run *run, const char *due, size_t length)
{
    size_t at = 0;
    if (run->printed.length == length && (length == 0 || memcmp(run->printed.at, due, length) == 0))
        return;
    while (at < length && at < run->printed.length && run->printed.at[at] == due[at])
        at++;
    fail("printed %lu bytes where %lu were due; at byte %lu '%s' for '%s'", (unsigned long)run->printed.length,
        (unsigned long)length, (unsigned long)at, shown(run->printed.at + at, run->printed.length - at),
        shown(due + at, length - at));
}

static void check_prefix(const struct run *run, struct bytes due)
{
    if (run->printed.length > due.length)
        fail("printed %lu bytes where %lu were due", (unsigned long)run->printed.length, (unsigned long)due.length);
    check_printed(run, due.at, run->printed.length);
}

static void check_said(const struct run *run, const char *due)
{
    if (run->said.length != strlen(due) || memcmp(run->said.at, due, run->said.length) != 0)
        fail("said '%s' on standard error where '%s' was due", shown(run->said.at, run->said.length),
            shown(due, strlen(due)));
}

/* One line with this beginning. */
static void check_said_line(const struct run *run, const char *beginning)
{
    if (strncmp(run->said.at, beginning, strlen(beginning)) != 0
        || strchr(run->said.at, '\n') != run->said.at + run->said.length - 1)
        fail("said '%s' on standard error where a line '%s...' was due", shown(run->said.at, run->said.length),
            beginning);
}

/* The line about a stream, `standard input`, `standard output` or the name of a file. */
static void check_error(const struct run *run, const char *stream, int error)
{
    char line[600];
    snprintf(line, sizeof line, "%s: %s: %s\n", run->program, stream, strerror(error));
    check_said(run, line);
}

/* What the shim counted: only so much failed, and nothing was read or written behind it. `reads` is whether standard input has
   to be read. */
static void check_calls(bool reads, unsigned long failed_reads, unsigned long failed_writes)
{
    if (report->reads + report->file_reads == 0)
        fail("the shim counted no read");
    if (reads != (report->reads > 0))
        fail(reads ? "standard input is not read" : "standard input is read");
    if (report->failed_reads != failed_reads || report->failed_writes != failed_writes)
        fail("%lu reads and %lu writes failed where %lu and %lu had to", report->failed_reads, report->failed_writes,
            failed_reads, failed_writes);
    if (report->after_end > 0)
        fail("%lu reads behind the end of the input", report->after_end);
    if (report->after_failed_read > 0)
        fail("%lu reads behind a failed read", report->after_failed_read);
    if (report->after_failed_write > 0)
        fail("%lu reads and writes behind a failed write", report->after_failed_write);
    if (reads && failed_reads + failed_writes == 0 && report->ended != 1)
        fail("the end of the input was not reached");
}

/* The inputs */

struct sample {
    struct tool tool;
    const char *name;
    struct buffer input;
    struct bytes due;
    int file; /* with the input */
};

static struct sample samples[64];
static size_t sample_count;

/* A further input, which begins with this text. */
static struct buffer *add_sample(struct tool tool, const char *name, const char *text)
{
    struct sample *sample = &samples[sample_count++];
    sample->tool = tool;
    sample->name = name;
    sample->input = new_buffer();
    add(&sample->input, text);
    return &sample->input;
}

#define NEAR_RUN \
    "ru\nrunx\nxrun\n run\nrun \nrrun\nrun run\nrun event\nrun eventsx\nxrun events\n run events\nrun events \nrun  events\n"

static void add_compiler_samples(void)
{
    struct buffer *input;
    add_sample(compiler, "nothing", "");
    add_sample(compiler, "the example", EXAMPLE);
    add_sample(compiler, "a last line without its end", "E1 causes A1\nnever A1");
    add_sample(compiler, "a faulty line", "E1 causes A1\nE64 causes A2\nE3 causes A3\n");
    add_sample(compiler, "a line that triggers", "E1 & E2 triggers E60 if R0 > 5\nE60 causes A1");
    add_largest(add_sample(compiler, "the largest image", ""));
    add_length(add_sample(compiler, "32,768 bytes", ""), TEXT_BYTES, true);
    add_length(add_sample(compiler, "32,769 bytes", ""), TEXT_BYTES + 1, true);
    input = add_sample(compiler, "a faulty line in 33,000 bytes", "E64 causes A1\n");
    add_length(input, 33000 - input->length, true);
    add_length(add_sample(compiler, "65,536 bytes", ""), 65536, true);
    add_length(add_sample(compiler, "200,000 bytes", ""), 200000, false);
}

static void add_decompiler_samples(void)
{
    static uint8_t image[IMAGE_BYTES];
    struct buffer text = new_buffer(), *input;
    size_t size;
    add_sample(decompiler, "nothing", "");
    add_sample(decompiler, "the empty text", "01000000\nFF000000\n");
    add_sample(decompiler, "the empty text in form 2", "02000000\n02000000\nFC000000\n");
    add(&text, EXAMPLE);
    compile(FIRST_FORM, text.bytes, text.length, image, sizeof image, &size);
    add_dump(add_sample(decompiler, "the example", ""), image, size);
    compile(2, text.bytes, text.length, image, sizeof image, &size);
    add_dump(add_sample(decompiler, "the example in form 2", ""), image, size);
    compile(NEWEST_FORM, text.bytes, text.length, image, sizeof image, &size);
    add_dump(add_sample(decompiler, "the example in the newest form", ""), image, size);
    image[size - WORD_BYTES - 1] ^= 1;
    put_sum(image, size / WORD_BYTES);
    add_dump(add_sample(decompiler, "a changed weighted word", ""), image, size);
    add_sample(decompiler, "a last line without its end", "01002000\n10400001\n50400000\n9e7fdfff");
    add_sample(decompiler, "a line that triggers",
        "03005000\n10400004\n10800003\n30008001\n00000005\n8F000000\n6F02502E\nAE3CDFC5\n");
    add_sample(decompiler, "a line that is no word", "01000000\nFF00000\nFF000000\nx\n");
    text.length = 0;
    add_widest(&text, NEWEST_FORM);
    compile(NEWEST_FORM, text.bytes, text.length, image, sizeof image, &size);
    add_dump(add_sample(decompiler, "the longest text", ""), image, size);
    image[size - 1] ^= 1;
    add_dump(add_sample(decompiler, "a changed word", ""), image, size);
    add_times(add_sample(decompiler, "3,267 words", ""), "01000000\n", IMAGE_WORDS);
    add_times(add_sample(decompiler, "3,268 words", ""), "01000000\n", IMAGE_WORDS + 1);
    input = add_sample(decompiler, "22,222 words, then none", "");
    add_times(input, "01000000\n", 22222);
    add(input, "0");
    add_times(add_sample(decompiler, "200,000 digits", ""), "0", 200000);
    free(text.bytes);
}

#define REMEMBERED "E1 triggers E60\nE60 causes A2\nE2 causes A1\nnever A1 & A2\n"

static void add_engine_samples(void)
{
    struct buffer *input;
    unsigned i;
    add_sample(engine, "nothing", "");
    add_sample(engine, "the example", EXAMPLE "run\nE1 E3 R0=41\nE1 E3 R0=40\nE1 E2 E3 R0=41\n\nE64\n");
    add_sample(engine, "a last line without its end", "E1 causes A3\nrun\nE1\n\n\nE1 E63");
    add_sample(engine, "a faulty line", "E1 causes A1\nE64 causes A2\nrun\nE1\nrun\nE1\n");
    add_sample(engine, "no run", EXAMPLE);
    add_sample(engine, "a faulty line and no run", "E1 causes\nE1 causes A1\n");
    add_sample(engine, "run without its end", "E1 causes A1\nrun");
    add_sample(engine, "the example by events", EXAMPLE "run events\nE1 E3 R0=41\n\nrun\nE1 E3");
    add_sample(engine, "run events without its end", "E1 causes A1\nrun events");
    add_sample(engine, "events that are remembered", REMEMBERED "run\nE1\n\nE1\nE64\nE1 E2\nE60\n\nE1");
    add_sample(engine, "remembered by events", REMEMBERED "run events\nE1 E2\nx\nE2\nE60\nE1\n\n");
    input = add_sample(engine, "32,769 bytes and run events", "");
    add_length(input, TEXT_BYTES + 1, true);
    add(input, NEAR_RUN "run events\nE1\n");
    add_largest_input(add_sample(engine, "the largest image", ""));
    for (i = 0; i < 3; i++) {
        static const char *const names[] = {"32,768 bytes", "32,769 bytes", "200,000 bytes"};
        static const size_t lengths[] = {TEXT_BYTES, TEXT_BYTES + 1, 200000};
        input = add_sample(engine, names[i], "");
        add_length(input, lengths[i], true);
        add(input, "run\nE1\n\nE1");
    }
    input = add_sample(engine, "33,000 bytes and no run", "");
    add_length(input, 33000, true);
    add(input, NEAR_RUN);
    input = add_sample(engine, "a faulty line in 60,000 bytes", "E64 causes A1\n");
    add_length(input, 60000 - input->length, true);
    add(input, NEAR_RUN "run\nE1\n");
    input = add_sample(engine, "many answers", "E1 causes A3\nrun\n");
    add_times(input, "\n", 3500);
    add(input, "E1");
    input = add_sample(engine, "long answers", "");
    for (i = 0; i < ACTIONS; i++)
        add_format(input, "E1 causes A%u\n", i);
    add(input, "run\n");
    add_times(input, "E1\n", 700);
}

/* Two texts in buffers of their own. */
static struct tool tool_of(const char *program, const char *maker, const char *site)
{
    struct buffer texts[2] = {new_buffer(), new_buffer()};
    add(&texts[0], maker);
    add(&texts[1], site);
    return tool_on(program, &texts[0], &texts[1]);
}

/* The example as two texts; the maker's last line lacks its end. */
#define EXAMPLE_OF_MAKER "E1 & !E2 causes A3 if R0 > 40\nnever A3 & A4"
#define EXAMPLE_OF_SITE "E3 causes A4\n"

static const char *const on_texts[] = {"compiler", "explain"};
enum { ON_TEXTS = sizeof on_texts / sizeof *on_texts };

/* For both programs that are called with two texts; the compiler reads no questions. */
static void add_texts_samples(void)
{
    struct buffer closed = new_buffer(), open = new_buffer(), longer = new_buffer();
    size_t i;
    add_length(&closed, TEXT_BYTES, true);
    add_length(&open, TEXT_BYTES, false);
    add_length(&longer, 200000, true);
    for (i = 0; i < ON_TEXTS; i++) {
        const char *program = on_texts[i];
        add_sample(tool_of(program, "", ""), "two empty texts", "");
        add_sample(tool_of(program, EXAMPLE_OF_MAKER, EXAMPLE_OF_SITE), "two texts",
            "A3 E1 E3 R0=41\nA4,E1,E3 R0=41\n\nA4\nA4,E64\nA4, E3\nA4,E3 R0=4");
        add_sample(tool_of(program, "E1 causes A1\nnever A1", "\nE64 causes A1\n"), "a faulty line of the site", "A1 E1\n");
        add_sample(tool_on(program, &open, &closed), "two texts of 32,768 bytes", "A3 E1\n");
        add_sample(tool_on(program, &closed, &longer), "a text of 200,000 bytes", "A3 E1\n");
    }
}

static void add_explain_samples(void)
{
    struct buffer maker = new_buffer(), site = new_buffer(), *input;
    input = add_sample(tool_of("explain", "E1 causes A3", ""), "many answers", "");
    add_times(input, "\nA3\n", 2000);
    add(input, "A3 E1");
    add(&maker, "never A1 & A2 if R0 > 5\nE1 causes A1\n");
    add(&site, "E1");
    add_times(&site, " ", 20000);
    add(&site, "causes A2");
    input = add_sample(tool_on("explain", &maker, &site), "long answers", "A2 E1 R0=6\n");
    add_times(input, "A2 E1 R0=5\nA1 E1\n", 10);
    input = add_sample(tool_of("explain", EXAMPLE_OF_MAKER, EXAMPLE_OF_SITE), "long questions", "A4 E3");
    add_times(input, " ", 70000);
    add(input, "\nA1");
    add_times(input, "0", 70000);
    add(input, "\nA4");
    add_times(input, ",E3", 20000);
    add(input, "\nA4,E3,E1");
    add_times(input, "0", 70000);
    add(input, "\nA4 E3");
}

static void make_samples(void)
{
    size_t i;
    strcpy(title, "samples");
    add_compiler_samples();
    add_decompiler_samples();
    add_engine_samples();
    add_texts_samples();
    add_explain_samples();
    for (i = 0; i < sample_count; i++) {
        struct sample *sample = &samples[i];
        sample->due = due_of(&sample->tool, sample->input.bytes, sample->input.length);
        sample->file = file_of(sample->input.bytes, sample->input.length);
    }
}

static const struct sample *sample_of(const char *program, const char *name)
{
    size_t i;
    for (i = 0; i < sample_count; i++)
        if (strcmp(samples[i].tool.program, program) == 0 && strcmp(samples[i].name, name) == 0)
            return &samples[i];
    fail("no sample %s", name);
    return NULL;
}

/* A program on the file of a sample. */
static struct setting on(const struct sample *sample, const char *script)
{
    struct setting setting = setting_of(&sample->tool);
    lseek(sample->file, 0, SEEK_SET);
    setting.in = sample->file;
    setting.script = script;
    return setting;
}

/* Inputs and outputs of few bytes are tried at every place. */
enum { FEW = 400 };

/* The places in `length` bytes where something is to happen: all of them, or some of many. */
static size_t find_places(size_t length, size_t places[FEW])
{
    static const size_t some[] = {0, 1, 2, 28, 29, 30, 4096, 32767, 32768, 32769, 32770, 32771, 32772, 32773, 32774,
        32779, 32780, 32781, 40000, 65024, 65025, 65535, 65536, 65537, 70000, 131072, 131073};
    size_t count = 0, i;
    if (length < FEW) {
        for (; count <= length; count++)
            places[count] = count;
        return count;
    }
    for (i = 0; i < sizeof some / sizeof *some && some[i] + 12 < length; i++)
        places[count++] = some[i];
    for (i = length - 12; i <= length; i++)
        places[count++] = i;
    return count;
}

/* With the shim */

/* A program on a sample with a script, until it has ended by itself. */
static struct run run_script(const struct sample *sample, const char *script)
{
    struct run run;
    begin("%s, %s, '%s'", sample->tool.program, sample->name, script);
    run = start_piped(on(sample, script));
    end(&run);
    check_status(&run);
    return run;
}

/* Interruptions and short calls change nothing. */
static void test_sound(void)
{
    static const char *const scripts[] = {"", "read_again=1", "write_again=1", "read_again=3 write_again=3",
        "read_every=2", "read_every=3 write_every=2", "write_every=3", "read_short=1", "read_short=2 write_short=7",
        "read_short=7", "read_short=1000 write_short=1000", "write_short=1", "read_short=1 write_again=1",
        "read_short=4096 read_every=2 write_short=4096 write_every=2", "read_short=65535", "write_short=65535",
        "read_short=3 read_again=2 read_every=5 write_short=5 write_again=1 write_every=3",
        "read_short=32768 write_every=2", "maker_short=1 site_again=1", "maker_again=2 site_short=3",
        "maker_short=1000 maker_every=2 site_short=32768 site_every=3 read_short=5 write_short=2"};
    size_t i, k;
    for (i = 0; i < sample_count; i++)
        for (k = 0; k < sizeof scripts / sizeof *scripts; k++) {
            const struct sample *sample = &samples[i];
            struct run run = run_script(sample, scripts[k]);
            check_said(&run, "");
            check_printed(&run, sample->due.at, sample->due.length);
            check_calls(reads_input(&sample->tool), 0, 0);
            if (strstr(scripts[k], reads_input(&sample->tool) ? "read_again" : "site_again") != NULL
                && report->interrupted == 0)
                fail("nothing was interrupted");
            forget(&run);
        }
}

/* A read that fails after any number of bytes. */
static void test_failing_reads(void)
{
    static const struct {
        int error;
        const char *script;
    } ways[] = {{EIO, ""}, {EIO, " read_short=1"}, {EAGAIN, " read_short=5 read_again=1"}};
    size_t places[FEW], i, k, n, count;
    for (i = 0; i < sample_count; i++)
        for (k = 0; k < (samples[i].input.length < FEW ? sizeof ways / sizeof *ways : 1) && reads_input(&samples[i].tool); k++)
            for (count = find_places(samples[i].input.length, places), n = 0; n < count; n++) {
                const struct sample *sample = &samples[i];
                struct bytes due = due_of_part(&sample->tool, sample->input.bytes, places[n]);
                struct run run;
                char script[200];
                snprintf(script, sizeof script, "read_stop=%lu read_error=%d%s", (unsigned long)places[n],
                    ways[k].error, ways[k].script);
                run = run_script(sample, script);
                check_error(&run, "standard input", ways[k].error);
                check_printed(&run, due.at, due.length);
                check_calls(true, 1, 0);
                forget(&run);
                free(due.at);
            }
}

/* A write that fails, or takes nothing, after any number of bytes. */
static void test_failing_writes(void)
{
    static const struct {
        int error;
        const char *script;
    } ways[] = {{EIO, ""}, {0, ""}, {EAGAIN, ""}, {EIO, " read_short=1"}, {ENOSPC, " write_short=3 read_short=9"},
        {EPIPE, " write_again=1 write_short=40"}, {0, " read_short=2"}};
    size_t places[FEW], i, k, n, count;
    for (i = 0; i < sample_count; i++)
        for (k = 0; k < (samples[i].input.length < FEW ? sizeof ways / sizeof *ways : 2); k++)
            for (count = find_places(samples[i].due.length, places), n = 0; n < count; n++) {
                const struct sample *sample = &samples[i];
                bool fails = places[n] < sample->due.length;
                struct run run;
                char script[200], beginning[40];
                snprintf(beginning, sizeof beginning, "%s: standard output: ", sample->tool.program);
                snprintf(script, sizeof script, "write_stop=%lu write_error=%d%s", (unsigned long)places[n],
                    ways[k].error, ways[k].script);
                run = run_script(sample, script);
                if (!fails)
                    check_said(&run, "");
                else if (ways[k].error != 0)
                    check_error(&run, "standard output", ways[k].error);
                else
                    check_said_line(&run, beginning);
                check_printed(&run, sample->due.at, places[n]);
                check_calls(reads_input(&sample->tool), 0, fails);
                forget(&run);
            }
}

/* A read of a file that fails after any number of bytes. */
static void test_failing_files(void)
{
    static const char *const files[] = {"maker", "site"};
    size_t places[FEW], i, k, n, count;
    for (i = 0; i < sample_count; i++)
        for (k = 0; k < 2 && has_files(&samples[i].tool); k++) {
            const struct sample *sample = &samples[i];
            size_t length = (k == 0 ? sample->tool.texts.maker : sample->tool.texts.site).length;
            for (count = find_places(length, places), n = 0; n < count; n++) {
                struct run run;
                char script[200];
                snprintf(script, sizeof script, "%s_stop=%lu %s_error=%d %s_short=%d", files[k], (unsigned long)places[n],
                    files[k], EIO, files[1 - k], n % 2 == 0 ? 1000 : 65536);
                run = run_script(sample, script);
                check_error(&run, sample->tool.names[k], EIO);
                check_printed(&run, "", 0);
                check_calls(false, 1, 0);
                forget(&run);
            }
        }
}

/* With real descriptors */

/* Descriptors that cannot be read. */
static void test_unreadable(void)
{
    static const struct {
        const char *name, *path; /* none: closed */
        int flags, error;
        bool prints;
    } ways[] = {{"a directory", "/", O_RDONLY, EISDIR, true}, {"closed input", NULL, 0, EBADF, true},
        {"input only for writing", "/dev/null", O_WRONLY, EBADF, true},
        {"closed input and output", NULL, 0, EBADF, false},
        {"a directory and closed output", "/", O_RDONLY, EISDIR, false}};
    const struct tool tools[] = {compiler, decompiler, engine, sample_of("explain", "two texts")->tool};
    size_t i, k;
    for (i = 0; i < sizeof tools / sizeof *tools; i++)
        for (k = 0; k < sizeof ways / sizeof *ways; k++) {
            struct setting setting = setting_of(&tools[i]);
            struct run run;
            begin("%s, %s", tools[i].program, ways[k].name);
            if (ways[k].path != NULL)
                setting.in = open_file(ways[k].path, ways[k].flags);
            run = ways[k].prints ? start_piped(setting) : start(setting, CLOSED);
            end(&run);
            check_status(&run);
            check_error(&run, "standard input", ways[k].error);
            check_printed(&run, "", 0);
            if (ways[k].path != NULL)
                close(setting.in);
            forget(&run);
        }
}

/* Input that is not read: it stays open and keeps its bytes, or is closed or a directory. */
static void test_unread_input(void)
{
    static const char *const names[] = {"input kept open", "a directory", "closed input"};
    static const char input[] = "A3 E1 E3 R0=41\nE1 causes A1\n";
    size_t i, k;
    for (i = 0; i < sample_count; i++)
        for (k = 0; k < 3 && !reads_input(&samples[i].tool); k++) {
            struct setting setting = setting_of(&samples[i].tool);
            struct run run;
            int writer = CLOSED;
            begin("%s, %s, %s", samples[i].tool.program, samples[i].name, names[k]);
            if (k < 2)
                setting.in = k == 0 ? pipe_of(input, sizeof input - 1, &writer) : open_file("/", O_RDONLY);
            run = start_piped(setting);
            end(&run);
            check_status(&run);
            check_said(&run, "");
            check_printed(&run, samples[i].due.at, samples[i].due.length);
            if (k == 0 && held(setting.in) != (int)sizeof input - 1)
                fail("input was read");
            if (k < 2)
                close(setting.in);
            if (k == 0)
                close(writer);
            forget(&run);
        }
}

/* Two files of which the given one cannot be opened or read. No input is read. */
static void fail_on_file(const char *program, char *maker, char *site, const char *named, int error)
{
    static const char input[] = "A1 E1\n";
    struct tool tool = {.program = program, .names = {maker, site}};
    struct setting setting = setting_of(&tool);
    struct run run;
    int writer;
    begin("%s '%.40s' '%.40s'", program, maker, site);
    setting.in = pipe_of(input, sizeof input - 1, &writer);
    run = start_piped(setting);
    end(&run);
    check_status(&run);
    check_error(&run, named, error);
    check_printed(&run, "", 0);
    if (held(setting.in) != (int)sizeof input - 1)
        fail("input was read");
    close(setting.in);
    close(writer);
    forget(&run);
}

/* Files that cannot be opened or read, as the maker's, as the site's and as both. The maker's is opened and read first; that its
   text is refused does not count while the site's file cannot be read. */
static void test_files(void)
{
    static char none[] = "", folder[] = "/", slash[] = "/dev/null/", long_name[300];
    char *const missing = new_name(), *const loop = new_name(), *const locked = named_file_of("", 0);
    char *const good = named_file_of("E1 causes A1\n", 13), *const refused = named_file_of("E64 causes A1\n", 14);
    const struct {
        char *name;
        int error;
    } bad[] = {{missing, ENOENT}, {none, ENOENT}, {folder, EISDIR}, {slash, ENOTDIR}, {long_name, ENAMETOOLONG}, {loop, ELOOP},
        {locked, EACCES}};
    size_t count = sizeof bad / sizeof *bad - (geteuid() == 0), i, k; /* root reads what is locked */
    memset(long_name, 'n', sizeof long_name - 1);
    if (symlink(loop, loop) < 0 || chmod(locked, 0) < 0)
        fail("%s", strerror(errno));
    for (k = 0; k < ON_TEXTS; k++)
        for (i = 0; i < count; i++) {
            fail_on_file(on_texts[k], bad[i].name, good, bad[i].name, bad[i].error);
            fail_on_file(on_texts[k], good, bad[i].name, bad[i].name, bad[i].error);
            fail_on_file(on_texts[k], refused, bad[i].name, bad[i].name, bad[i].error);
            fail_on_file(on_texts[k], bad[i].name, missing, bad[i].name, bad[i].error);
            fail_on_file(on_texts[k], bad[i].name, folder, bad[i].name, bad[i].error);
        }
}

/* Input that would block behind these bytes. */
static void block_behind(const struct tool *tool, const void *bytes, size_t length)
{
    struct setting setting = setting_of(tool);
    struct bytes due = due_of_part(tool, bytes, length);
    struct run run;
    int writer;
    begin("%s, input that would block after %lu bytes '%s'", tool->program, (unsigned long)length, shown(bytes, length));
    setting.in = pipe_of(bytes, length, &writer);
    set_nonblocking(setting.in);
    run = start_piped(setting);
    end(&run);
    check_status(&run);
    check_error(&run, "standard input", EAGAIN);
    check_printed(&run, due.at, due.length);
    close(setting.in);
    close(writer);
    forget(&run);
    free(due.at);
}

static void test_blocking_input(void)
{
    static const char *const texts[] = {
        "", "E1", "E1 causes A1\n", "E1 causes A1\nnever A", "E64 causes A1\n", "E1\nE1\n"};
    static const char *const dumps[] = {"", "01000000", "01000000\n", "01000000\nFF000000\n", "01000000\nFF000000\n0",
        "02000000\n02000000\nFC000000\n", "02000000\n02000000\n", "x\n", "01000000\n\n"};
    static const char *const inputs[] = {"", "E1 causes A1\n", "E1 causes A1\nrun", "E1 causes A1\nrun\n",
        "E1 causes A1\nrun\nE1", "E1 causes A1\nrun\nE1\n", "E1 causes A1\nrun\nE1\n\nE64\nE1 E2", "E64 causes A1\n",
        "E64 causes A1\nru", "E64 causes A1\nrun\nE1\nE", "run\n\n\n ", REMEMBERED "run\nE1\nE60\n\nE"};
    static const char *const questions[] = {
        "", "A", "A3 E1 R0=41", "A4 E3\n", "A4 E3\n\nA64\nA3 E", "\n\nx\n ", "A4,", "A4,E3", "A4,E3\nA4,E3,"};
    static const char *const names[] = {"32,769 bytes", "33,000 bytes and no run", "a faulty line in 60,000 bytes",
        "many answers", "long answers"};
    size_t i;
    for (i = 0; i < sizeof texts / sizeof *texts; i++)
        block_behind(&compiler, texts[i], strlen(texts[i]));
    for (i = 0; i < sizeof dumps / sizeof *dumps; i++)
        block_behind(&decompiler, dumps[i], strlen(dumps[i]));
    for (i = 0; i < sizeof inputs / sizeof *inputs; i++)
        block_behind(&engine, inputs[i], strlen(inputs[i]));
    for (i = 0; i < sizeof questions / sizeof *questions; i++)
        block_behind(&sample_of("explain", "two texts")->tool, questions[i], strlen(questions[i]));
    for (i = 0; i < sizeof names / sizeof *names; i++) {
        const struct sample *sample = sample_of("engine", names[i]);
        block_behind(&engine, sample->input.bytes, sample->input.length);
        block_behind(&compiler, sample->input.bytes, sample->input.length);
    }
    block_behind(&decompiler, sample_of("decompiler", "the longest text")->input.bytes,
        sample_of("decompiler", "the longest text")->input.length);
}

/* Outputs that take nothing. */
enum sink { FULL_DEVICE, CLOSED_OUTPUT, ONLY_FOR_READING, NO_READER, NO_READER_SIGNAL, FULL_PIPE, SINKS };

static int open_sink(enum sink sink, int *reader)
{
    static const char filling[PIPE_BYTES];
    int ends[2];
    *reader = CLOSED;
    switch (sink) {
    case FULL_DEVICE: return open_file("/dev/full", O_WRONLY);
    case ONLY_FOR_READING: return open_file("/dev/null", O_RDONLY);
    case CLOSED_OUTPUT: return CLOSED;
    default: make_pipe(ends); break;
    }
    if (sink == FULL_PIPE) {
        set_nonblocking(ends[1]);
        while (write(ends[1], filling, sizeof filling) > 0)
            continue;
        *reader = ends[0];
    } else {
        close(ends[0]);
    }
    return ends[1];
}

/* What a program did whose output takes nothing. */
static void check_sink(const struct run *run, const struct sample *sample, enum sink sink)
{
    static const int errors[SINKS] = {ENOSPC, EBADF, EBADF, EPIPE, EPIPE, EAGAIN};
    bool writes = sample->due.length > 0;
    check_status(run);
    if (writes)
        check_error(run, "standard output", errors[sink]);
    else
        check_said(run, "");
}

/* A sample whose output goes nowhere. If the input stays open the program has to end by itself. */
static void print_to_sink(const struct sample *sample, enum sink sink, bool stays_open)
{
    static const char *const names[SINKS] = {"a full device", "closed output", "output only for reading",
        "no reader, SIGPIPE ignored", "no reader", "a full pipe that would block"};
    struct setting setting = on(sample, NULL);
    struct run run;
    int writer = CLOSED, reader, before;
    begin("%s, %s, %s%s", sample->tool.program, sample->name, names[sink], stays_open ? ", input kept open" : "");
    if (stays_open)
        setting.in = pipe_of(sample->input.bytes, sample->input.length, &writer);
    setting.out = open_sink(sink, &reader);
    setting.ignores_pipe = sink == NO_READER;
    before = reader == CLOSED ? 0 : held(reader);
    run = start(setting, CLOSED);
    end(&run);
    check_sink(&run, sample, sink);
    if (reader != CLOSED && held(reader) != before)
        fail("printed %d bytes into a full pipe", held(reader) - before);
    if (setting.out != CLOSED)
        close(setting.out);
    if (reader != CLOSED)
        close(reader);
    if (stays_open) {
        close(setting.in);
        close(writer);
    }
    forget(&run);
}

static void test_sinks(void)
{
    size_t i;
    int sink;
    for (i = 0; i < sample_count; i++)
        for (sink = 0; sink < SINKS; sink++) {
            const struct sample *sample = &samples[i];
            struct bytes due = due_of_part(&sample->tool, sample->input.bytes, sample->input.length);
            print_to_sink(sample, (enum sink)sink, false);
            if (due.length > 0 && sample->input.length <= PIPE_BYTES)
                print_to_sink(sample, (enum sink)sink, true);
            free(due.at);
        }
}

/* A pipe that would block, and nobody reads. */
static void test_blocking_output(void)
{
    static const char *const names[] = {"many answers", "long answers"};
    size_t i;
    for (i = 0; i < 2; i++) {
        const struct sample *sample = sample_of("engine", names[i]);
        struct setting setting = on(sample, NULL);
        struct run run;
        int ends[2], writer;
        begin("engine, %s, nobody reads and writing would block", names[i]);
        make_pipe(ends);
        set_nonblocking(ends[1]);
        setting.in = pipe_of(sample->input.bytes, sample->input.length, &writer);
        setting.out = ends[1];
        run = start(setting, CLOSED);
        close(ends[1]);
        end(&run);
        check_status(&run);
        check_error(&run, "standard output", EAGAIN);
        run.out = ends[0];
        while (run.out != CLOSED)
            take(&run.out, &run.printed, PIPE_BYTES);
        if (run.printed.length == 0)
            fail("nothing was printed");
        check_prefix(&run, sample->due);
        close(setting.in);
        close(writer);
        forget(&run);
    }
}

/* A reader that takes so many bytes of many answers to one read and goes away. The input stays open, and what came into
   it meanwhile is not read. */
static void leave_after(const struct buffer *input, struct bytes due, size_t count, bool ignores_pipe)
{
    static const char more[] = "E1\n\nE1\nE1\n";
    struct setting setting = setting_of(&engine);
    struct pollfd first;
    struct run run;
    int writer, left;
    begin("engine, a reader that goes away after %lu bytes%s", (unsigned long)count,
        ignores_pipe ? ", SIGPIPE ignored" : "");
    setting.in = pipe_of(input->bytes, input->length, &writer);
    setting.ignores_pipe = ignores_pipe;
    run = start_piped(setting);
    first.fd = run.out;
    first.events = POLLIN;
    if (poll(&first, 1, time_left()) != 1)
        fail("no answer");
    left = held(setting.in);
    write_all(writer, more, sizeof more - 1);
    while (run.printed.length < count) {
        if (run.out == CLOSED || poll(&first, 1, time_left()) != 1)
            fail("only %lu bytes were printed", (unsigned long)run.printed.length);
        take(&run.out, &run.printed, count - run.printed.length);
    }
    close(run.out);
    run.out = CLOSED;
    end(&run);
    check_prefix(&run, due);
    check_status(&run);
    check_error(&run, "standard output", EPIPE);
    if (held(setting.in) != left + (int)sizeof more - 1)
        fail("%d bytes were read after the reader was gone", left + (int)sizeof more - 1 - held(setting.in));
    close(setting.in);
    close(writer);
    forget(&run);
}

static void test_leaving_reader(void)
{
    static const size_t counts[] = {0, 1, 28, 29, 4096, 65024, 65535, 65536, 65537, 100001, 131072, 300000, 900000};
    struct buffer input = new_buffer();
    struct bytes due;
    size_t i;
    add(&input, "E1 causes A3\nrun\n");
    add_times(&input, "\n", 60000);
    due = due_of(&engine, input.bytes, input.length);
    for (i = 0; i < sizeof counts / sizeof *counts; i++) {
        leave_after(&input, due, counts[i], true);
        leave_after(&input, due, counts[i], false);
    }
    free(input.bytes);
    free(due.at);
}

/* A wrong number of arguments: nothing is read. */
static void test_arguments(void)
{
    static const struct {
        const char *program, *beginning;
        bool alone, files; /* whether it takes no argument, and two */
    } usages[] = {{"compiler", "usage: compiler", true, true},
        {"decompiler", "usage: decompiler, with the words of an image on standard input", true, false},
        {"engine", "usage: engine, with a rule text, a line run or run events, and epoch lines on standard input", true, false},
        {"explain", "usage: explain", false, true}};
    static char x[] = "x", none[] = "", help[] = "--help", dash[] = "-", null[] = "/dev/null";
    char *const lists[][3] = {{NULL, NULL, NULL}, {x, NULL, NULL}, {none, NULL, NULL}, {help, NULL, NULL}, {dash, NULL, NULL},
        {null, NULL, NULL}, {x, x, NULL}, {null, null, NULL}, {none, none, help}, {null, null, null}};
    static const char input[] = "E1 causes A1\nrun\nE1\n";
    size_t i, k;
    for (i = 0; i < sizeof usages / sizeof *usages; i++)
        for (k = 0; k < sizeof lists / sizeof *lists; k++) {
            struct tool tool = {.program = usages[i].program};
            struct setting setting = setting_of(&tool);
            struct run run;
            int writer, count = 0;
            while (count < 3 && lists[k][count] != NULL)
                count++;
            if ((count == 0 && usages[i].alone) || (count == 2 && usages[i].files))
                continue;
            begin("%s with %d arguments, '%s'", tool.program, count, count == 0 ? "" : lists[k][0]);
            memcpy(setting.arguments, lists[k], sizeof setting.arguments);
            setting.in = pipe_of(input, strlen(input), &writer);
            run = start_piped(setting);
            end(&run);
            check_status(&run);
            check_said_line(&run, usages[i].beginning);
            check_printed(&run, "", 0);
            if (held(setting.in) != (int)strlen(input))
                fail("input was read");
            close(setting.in);
            close(writer);
            forget(&run);
        }
}

/* Clients that wait */

/* Sends bytes, while what the program prints is collected. */
static void say(struct run *run, int to, const void *bytes, size_t length)
{
    const char *at = bytes;
    while (length > 0) {
        ssize_t count;
        if (!attend(run, to, time_left()))
            continue;
        count = write(to, at, length);
        if (count < 0 && errno != EAGAIN)
            fail("the rest of the input is not read: %s", strerror(errno));
        if (count > 0) {
            at += count;
            length -= (size_t)count;
        }
    }
}

/* Waits until this much is printed. */
static void await(struct run *run, const char *due)
{
    while (run->out != CLOSED && run->printed.length < strlen(due))
        attend(run, CLOSED, time_left());
    check_printed(run, due, strlen(due));
}

/* Nothing is printed for a while. */
static void stay_silent(struct run *run, int milliseconds)
{
    size_t before = run->printed.length;
    long until = now() + milliseconds;
    while (now() < until)
        attend(run, CLOSED, milliseconds);
    if (run->printed.length != before)
        fail("printed '%s' before it was due", shown(run->printed.at + before, run->printed.length - before));
}

static struct run start_client(int *to)
{
    struct setting setting = setting_of(&engine);
    struct run run;
    setting.in = pipe_of("", 0, to);
    run = start_piped(setting);
    close(setting.in);
    return run;
}

/* Closes the input; nothing more is printed. */
static void leave(struct run *run, int to, const char *due)
{
    close(to);
    end(run);
    check_status(run);
    check_said(run, "");
    check_printed(run, due, strlen(due));
    forget(run);
}

/* A text over its length is refused at its line `run` or `run events`; what follows is read and not answered. */
static void refuse_long(size_t length, const char *before, const char *run_line)
{
    static const char refusal[] = "refused 1 line 0\n";
    struct buffer text = new_buffer(), more = new_buffer();
    struct run run;
    int to;
    begin("engine, a client that sends a text of %lu bytes, '%s' and '%s', and waits", (unsigned long)length,
        shown(before, strlen(before)), shown(run_line, strlen(run_line)));
    add_length(&text, length, true);
    add_times(&more, "E1\nrun\nE1 causes A3\n", 5000);
    run = start_client(&to);
    say(&run, to, text.bytes, text.length);
    say(&run, to, before, strlen(before));
    stay_silent(&run, *before == '\0' ? 0 : 200);
    say(&run, to, run_line, strlen(run_line));
    await(&run, refusal);
    say(&run, to, "E1\n", 3);
    say(&run, to, more.bytes, more.length);
    leave(&run, to, refusal);
    free(text.bytes);
    free(more.bytes);
}

/* A text of about the full length before a client that waits, in either mode. */
static void answer_after(size_t length, enum mode mode)
{
    static const char *const rests[] = {[CANCEL_ACTIONS] = "n\n", [CANCEL_EVENTS] = "n events\n"};
    static const char *const first[] = {
        [CANCEL_ACTIONS] = "1 accept A3 cancel - words 2\n", [CANCEL_EVENTS] = "1 accept A3 cancel - words 3\n"};
    static const char *const both[] = {[CANCEL_ACTIONS] = "1 accept A3 cancel - words 2\n2 accept - cancel - words 1\n",
        [CANCEL_EVENTS] = "1 accept A3 cancel - words 3\n2 accept - cancel - words 2\n"};
    struct buffer text = new_buffer();
    bool fits = length <= TEXT_BYTES;
    struct run run;
    int to;
    begin("engine, a client that sends a text of %lu bytes, 'ru%s', and waits", (unsigned long)length,
        shown(rests[mode], strlen(rests[mode])));
    add_length(&text, length, true);
    run = start_client(&to);
    say(&run, to, text.bytes, text.length);
    say(&run, to, "ru", 2);
    say(&run, to, rests[mode], strlen(rests[mode]));
    if (!fits)
        await(&run, "refused 1 line 0\n");
    say(&run, to, "E1\n", 3);
    if (fits)
        await(&run, first[mode]);
    say(&run, to, "E2", 2);
    leave(&run, to, fits ? both[mode] : "refused 1 line 0\n");
    free(text.bytes);
}

/* Lines that just fill a read, or nearly, are answered while the input stays open. The input begins with `start`, each line
   with `first`. */
static void answer_full_read(const struct tool *tool, const char *start, const char *first, size_t length)
{
    struct setting setting = setting_of(tool);
    struct buffer input = new_buffer();
    struct bytes due;
    struct run run;
    int to;
    begin("%s, a client that sends %lu bytes at once and waits", tool->program, (unsigned long)length);
    add(&input, start);
    while (input.length + 1000 < length) {
        add(&input, first);
        add(&input, "E1                                     R0=-4                                   E2\n");
    }
    add_times(&input, " ", (unsigned)(length - input.length - 1));
    add(&input, "\n");
    due = due_of(tool, input.bytes, input.length);
    setting.in = pipe_of(input.bytes, input.length, &to);
    run = start_piped(setting);
    close(setting.in);
    await(&run, due.at);
    leave(&run, to, due.at);
    free(input.bytes);
    free(due.at);
}

static void test_clients(void)
{
    static const size_t lengths[] = {4096, PIPE_BYTES - 1, PIPE_BYTES};
    size_t n;
    refuse_long(33000, "", "run\n");
    refuse_long(200000, "", "run\n");
    refuse_long(33000, NEAR_RUN, "run\n");
    refuse_long(200000, NEAR_RUN, "run\n");
    refuse_long(33000, "", "run events\n");
    refuse_long(200000, NEAR_RUN, "run events\n");
    for (n = TEXT_BYTES - 6; n <= TEXT_BYTES + 6; n++)
        answer_after(n, CANCEL_ACTIONS);
    for (n = TEXT_BYTES - 12; n <= TEXT_BYTES + 6; n += 3)
        answer_after(n, CANCEL_EVENTS);
    for (n = 0; n < sizeof lengths / sizeof *lengths; n++) {
        answer_full_read(&engine, "E1 causes A3\nrun\n", "", lengths[n]);
        answer_full_read(&sample_of("explain", "many answers")->tool, "", "A3 ", lengths[n]);
    }
}

/* A terminal: each EOT at the start of a line is an end of the input, and only one is sent. */
static void type(const struct tool *tool, const char *typed, const char *input)
{
    struct setting setting = setting_of(tool);
    struct bytes due = due_of(tool, (const uint8_t *)input, strlen(input));
    struct termios modes;
    struct run run;
    int terminal;
    begin("%s on a terminal, '%s'", tool->program, shown(typed, strlen(typed)));
    terminal = keep(posix_openpt(O_RDWR | O_NOCTTY));
    if (grantpt(terminal) < 0 || unlockpt(terminal) < 0)
        fail("no terminal: %s", strerror(errno));
    setting.in = open_file(ptsname(terminal), O_RDWR | O_NOCTTY);
    if (tcgetattr(setting.in, &modes) < 0)
        fail("no terminal: %s", strerror(errno));
    modes.c_lflag &= ~(tcflag_t)ECHO;
    if (tcsetattr(setting.in, TCSANOW, &modes) < 0)
        fail("no terminal: %s", strerror(errno));
    write_all(terminal, typed, strlen(typed));
    run = start_piped(setting);
    end(&run);
    check_status(&run);
    check_said(&run, "");
    check_printed(&run, due.at, due.length);
    close(setting.in);
    close(terminal);
    forget(&run);
    free(due.at);
}

static void test_terminal(void)
{
    const struct tool *explaining = &sample_of("explain", "two texts")->tool;
    type(&compiler, "\4", "");
    type(&compiler, EXAMPLE "\4", EXAMPLE);
    type(&compiler, "E64 causes A1\n\4", "E64 causes A1\n");
    type(&compiler, "E1 causes A1\4\4", "E1 causes A1"); /* the first EOT only sends the line */
    type(&decompiler, "\4", "");
    type(&decompiler, "01000000\nff000000\n\4", "01000000\nff000000\n");
    type(&decompiler, "01000000\nff000000\4\4", "01000000\nff000000");
    type(&decompiler, "02000000\n02000000\nfc000000\n\4", "02000000\n02000000\nfc000000\n");
    type(&decompiler, "01000000\n\nff000000\n\4", "01000000\n\nff000000\n");
    type(&engine, "\4", "");
    type(&engine, EXAMPLE "\4", EXAMPLE);
    type(&engine, EXAMPLE "run\nE1 E3 R0=41\n\nE64\n\4", EXAMPLE "run\nE1 E3 R0=41\n\nE64\n");
    type(&engine, EXAMPLE "run\nE1 E3 R0=41\n\nE3\4\4", EXAMPLE "run\nE1 E3 R0=41\n\nE3");
    type(&engine, EXAMPLE "run events\nE1 E3 R0=41\n\nE3\4\4", EXAMPLE "run events\nE1 E3 R0=41\n\nE3");
    type(&engine, "E64 causes A1\nrun\nE1\n\4", "E64 causes A1\nrun\nE1\n");
    type(explaining, "\4", "");
    type(explaining, "A3 E1 E3 R0=41\nA4 E1 E3 R0=41\n\4", "A3 E1 E3 R0=41\nA4 E1 E3 R0=41\n");
    type(explaining, "A4 E3\n\nA4\4\4", "A4 E3\n\nA4");
}

int main(int argc, char **argv)
{
    int file;
    strcpy(title, "failures");
    if (argc != 4)
        fail("usage: failures PROGRAMS SHIM REPORT");
    programs = argv[1];
    shim = argv[2];
    report_name = argv[3];
    signal(SIGPIPE, SIG_IGN);
    file = keep(open(report_name, O_RDWR | O_CREAT | O_TRUNC, 0600));
    if (ftruncate(file, sizeof *report) < 0)
        fail("%s: %s", report_name, strerror(errno));
    report = mmap(NULL, sizeof *report, PROT_READ | PROT_WRITE, MAP_SHARED, file, 0);
    if (report == MAP_FAILED)
        fail("%s: %s", report_name, strerror(errno));
    make_samples();
    test_arguments();
    test_files();
    test_unreadable();
    test_unread_input();
    test_blocking_input();
    test_terminal();
    test_sinks();
    test_blocking_output();
    test_leaving_reader();
    test_clients();
    test_sound();
    test_failing_reads();
    test_failing_files();
    test_failing_writes();
    printf("%lu\n", cases);
    return 0;
}
