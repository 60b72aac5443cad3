/* Runs the main function of `overlay` or `overlay-check` again and again in one process, each time on the next input of
 * afl-fuzz in memory.
 *
 * What the program reads on standard input is the input, or nothing; what it writes is dropped; no file can be opened.
 * So all of the program runs, its reading of arguments and its explanations too, but for calls of the system.
 *
 * usage: PROGRAM certificate|scenario|graph|arguments
 *   certificate  the input is what overlay-check reads
 *   scenario     the input is what `overlay run --explain` reads
 *   graph        the input is what `overlay analyse` reads; its first line may give arguments (see options_of_graph)
 *   arguments    each line of the input is an argument of overlay, which reads nothing; a sweep that grows is not run
 *
 * The program's own main is renamed to program_main, and its calls of read, write, open and _exit are sent to the
 * functions below (ld --wrap). rattle_arg and rattle_arg_count stand in for those of the kit, which return the
 * arguments of the process.
 */
#include <errno.h>
#include <setjmp.h>
#include <signal.h>
#include <stddef.h>
#include <stdio.h>
#include <stdlib.h>
#include <string.h>
#include <sys/types.h>
#include <unistd.h>

/* The first place of the map of coverage belongs to afl-fuzz. */
enum { MAP_BEGIN = 8, LOOPS = 20000, MOST_ARGUMENTS = 64, LONGEST_INPUT = 1 << 20, STATUS_OF_USAGE = 2 };

/* AFL++'s runtime: the test case in shared memory, and the loop. */
int __afl_sharedmem_fuzzing = 1;
extern unsigned int *__afl_fuzz_len;
extern unsigned char *__afl_fuzz_ptr, *__afl_area_ptr;
extern unsigned int __afl_final_loc;
void __afl_manual_init(void);
int __afl_persistent_loop(unsigned int);
/* afl-fuzz looks for these texts in the program. */
__attribute__((used)) const char persistent[] = "##SIG_AFL_PERSISTENT##";
__attribute__((used)) const char deferred[] = "##SIG_AFL_DEFER_FORKSRV##";

int program_main(int count, char **words, char **environment);
ssize_t __real_read(int file, void *room, size_t size);
ssize_t __real_write(int file, const void *bytes, size_t size);
void __real__exit(int status) __attribute__((noreturn));

/* How often each edge of the program was taken: clang counts it in line, which is faster than AFL++'s calls. */
static unsigned char *counters;
static size_t counter_count;
static const unsigned char *input;
static size_t input_left;
static int is_running;
static jmp_buf ended;
static const unsigned char *arguments[MOST_ARGUMENTS];
static size_t lengths[MOST_ARGUMENTS], argument_count;

/* Called before AFL++'s runtime sets up its map, which is to have a byte for each counter. */
void __sanitizer_cov_8bit_counters_init(unsigned char *begin, unsigned char *end) {
    counters = begin;
    counter_count = (size_t)(end - begin);
    __afl_final_loc = MAP_BEGIN + (unsigned int)counter_count;
}

/* Hands the counts of a run to afl-fuzz. */
static void tell_counts(void) {
    memcpy(__afl_area_ptr + MAP_BEGIN, counters, counter_count);
}

/* The same before the program ends by a signal, so that afl-fuzz can tell one crash from another. */
static void on_crash(int number) {
    tell_counts();
    signal(number, SIG_DFL);
    raise(number);
}

ssize_t __wrap_read(int file, void *room, size_t size) {
    if (!is_running || file != STDIN_FILENO)
        return __real_read(file, room, size);
    size_t taken = size < input_left ? size : input_left;
    memcpy(room, input, taken);
    input += taken;
    input_left -= taken;
    return (ssize_t)taken;
}

ssize_t __wrap_write(int file, const void *bytes, size_t size) {
    if (!is_running || (file != STDOUT_FILENO && file != STDERR_FILENO))
        return __real_write(file, bytes, size);
    return (ssize_t)size;
}

int __wrap_open(const char *name, int flags, ...) {
    (void)name, (void)flags;
    errno = ENOENT;
    return -1;
}

void __wrap__exit(int status) {
    if (!is_running)
        __real__exit(status);
    longjmp(ended, 1);
}

size_t rattle_arg_count(void) {
    return argument_count;
}

/* The length of an argument, whose bytes are copied into the room; -1 if there is none, -2 if the room is too small. */
ssize_t rattle_arg(size_t place, unsigned char *room, size_t size) {
    if (place >= argument_count)
        return -1;
    size_t length = lengths[place];
    memcpy(room, arguments[place], length < size ? length : size);
    return length <= size ? (ssize_t)length : -2;
}

static void add_argument(const void *bytes, size_t length) {
    if (argument_count < MOST_ARGUMENTS) {
        arguments[argument_count] = bytes;
        lengths[argument_count++] = length;
    }
}

static void add_word(const char *word) {
    add_argument(word, strlen(word));
}

/* The length of the line that these bytes begin with, without its end. */
static size_t line_length(const unsigned char *bytes, size_t size) {
    const unsigned char *end = memchr(bytes, '\n', size);
    return end ? (size_t)(end - bytes) : size;
}

/* The bytes up to a zero byte, which no argument has. */
static size_t without_zero(const unsigned char *bytes, size_t size) {
    const unsigned char *end = memchr(bytes, 0, size);
    return end ? (size_t)(end - bytes) : size;
}

static int is_option(const unsigned char *word, size_t length) {
    if (length >= 2 && word[0] == '-' && word[1] == '-')
        return 1;
    for (size_t at = 0; at < length; at++)
        if ((word[at] < '0' || word[at] > '9') && word[at] != ',')
            return 0;
    return 1;
}

/* If the first line of a graph file is `#` and behind it words, each of which begins with `--` or has digits and commas
 * alone, they are arguments. The line itself is a comment of the file. */
static void options_of_graph(const unsigned char *bytes, size_t size) {
    size_t length = line_length(bytes, size);
    if (length == 0 || bytes[0] != '#' || memchr(bytes, 0, length))
        return;
    size_t before = argument_count;
    for (size_t at = 1; at < length;) {
        size_t end = at;
        while (end < length && bytes[end] != ' ')
            end++;
        if (!is_option(bytes + at, end - at)) {
            argument_count = before;
            return;
        }
        if (end > at)
            add_argument(bytes + at, end - at);
        at = end + 1;
    }
}

static void arguments_of_lines(const unsigned char *bytes, size_t size) {
    for (size_t at = 0; at < size;) {
        size_t length = line_length(bytes + at, size - at);
        add_argument(bytes + at, without_zero(bytes + at, length));
        at += length + 1;
    }
}

/* Whether the arguments ask to grow many overlays, which may take hours: a sweep that lists and reads nothing. */
static int is_long(void) {
    if (argument_count < 2 || lengths[1] != 5 || memcmp(arguments[1], "sweep", 5) != 0)
        return 0;
    for (size_t at = 2; at < argument_count; at++)
        if (lengths[at] >= 6 && (memcmp(arguments[at], "--list", 6) == 0 || memcmp(arguments[at], "--read", 6) == 0))
            return 0;
    return 1;
}

static void run(const char *target, const unsigned char *bytes, size_t size) {
    input = bytes;
    input_left = size;
    argument_count = 0;
    add_word("program");
    if (strcmp(target, "scenario") == 0) {
        add_word("run");
        add_word("--explain");
    } else if (strcmp(target, "graph") == 0) {
        add_word("analyse");
        options_of_graph(bytes, size);
    } else if (strcmp(target, "arguments") == 0) {
        arguments_of_lines(bytes, size);
        input_left = 0;
        if (is_long())
            return;
    }
    memset(counters, 0, counter_count);
    is_running = 1;
    if (setjmp(ended) == 0)
        program_main(0, NULL, NULL);
    is_running = 0;
    tell_counts();
}

int main(int count, char **words) {
    static unsigned char alone[LONGEST_INPUT];
    if (count != 2) {
        fprintf(stderr, "usage: %s certificate|scenario|graph|arguments\n", words[0]);
        return STATUS_OF_USAGE;
    }
    const int crashes[] = {SIGSEGV, SIGABRT, SIGILL, SIGBUS, SIGFPE, SIGTRAP};
    for (size_t at = 0; at < sizeof crashes / sizeof crashes[0]; at++)
        signal(crashes[at], on_crash);
    __afl_manual_init();
    while (__afl_persistent_loop(LOOPS)) {
        if (__afl_fuzz_ptr) {
            run(words[1], __afl_fuzz_ptr, *__afl_fuzz_len);
        } else {
            ssize_t size = read(STDIN_FILENO, alone, LONGEST_INPUT);
            run(words[1], alone, size < 0 ? 0 : (size_t)size);
        }
    }
    return 0;
}
