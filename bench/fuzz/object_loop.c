/* Runs the main function of overlay-check on many inputs in one process, for judge_object.py, which links it to the
 * object file of the proved program. On standard input come, for each, its length in 4 bytes and its bytes; on standard
 * output go for each the status in 4 bytes, and twice a length in 4 bytes and bytes: what was printed, and standard
 * error.
 *
 * The program's own main is renamed to program_main, and its calls of read, write and _exit are sent to the functions
 * below (ld --wrap). rattle_arg and rattle_arg_count stand in for those of the kit: there are no arguments. */
#include <setjmp.h>
#include <stdint.h>
#include <stdio.h>
#include <stdlib.h>
#include <string.h>
#include <sys/types.h>
#include <unistd.h>

enum { MOST_PRINTED = 1 << 20 };

int program_main(int count, char **words, char **environment);
ssize_t __real_read(int file, void *room, size_t size);
ssize_t __real_write(int file, const void *bytes, size_t size);
void __real__exit(int status) __attribute__((noreturn));

struct printed {
    uint32_t size;
    unsigned char bytes[MOST_PRINTED];
};

static const unsigned char *input;
static size_t input_left;
static int is_running, status;
static jmp_buf ended;
static struct printed out, err;

ssize_t __wrap_read(int file, void *room, size_t size) {
    if (!is_running || file != STDIN_FILENO)
        return __real_read(file, room, size);
    size_t taken = size < input_left ? size : input_left;
    memcpy(room, input, taken);
    input += taken;
    input_left -= taken;
    return (ssize_t)taken;
}

ssize_t __wrap_write(int file, const void *bytes, size_t size) {
    if (!is_running || (file != STDOUT_FILENO && file != STDERR_FILENO))
        return __real_write(file, bytes, size);
    struct printed *to = file == STDOUT_FILENO ? &out : &err;
    if (size > MOST_PRINTED - to->size)
        return -1;
    memcpy(to->bytes + to->size, bytes, size);
    to->size += (uint32_t)size;
    return (ssize_t)size;
}

void __wrap__exit(int with) {
    if (!is_running)
        __real__exit(with);
    status = with;
    longjmp(ended, 1);
}

size_t rattle_arg_count(void) {
    return 1;
}

/* The length of an argument, of which there is the program's name alone; -1 if there is none. */
ssize_t rattle_arg(size_t place, unsigned char *room, size_t size) {
    (void)room, (void)size;
    return place == 0 ? 0 : -1;
}

static void tell(const struct printed *it) {
    fwrite(&it->size, sizeof it->size, 1, stdout);
    fwrite(it->bytes, 1, it->size, stdout);
}

int main(void) {
    uint32_t size;
    while (fread(&size, sizeof size, 1, stdin) == 1) {
        unsigned char *bytes = malloc((size_t)size + 1);
        if (!bytes || fread(bytes, 1, size, stdin) != size)
            return 1;
        input = bytes;
        input_left = size;
        out.size = err.size = 0;
        is_running = 1;
        if (setjmp(ended) == 0)
            status = program_main(0, NULL, NULL);
        is_running = 0;
        free(bytes);
        fwrite(&status, sizeof status, 1, stdout);
        tell(&out);
        tell(&err);
        fflush(stdout);
    }
    return 0;
}
