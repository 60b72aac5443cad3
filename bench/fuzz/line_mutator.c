/* A mutator of lines for afl-fuzz (AFL_CUSTOM_MUTATOR_LIBRARY), beside its own, which changes bytes: takes lines out,
 * brings lines of the same or of another input in, and changes numbers. Built by fuzz.py. */
#include <stdint.h>
#include <stdio.h>
#include <stdlib.h>
#include <string.h>

enum { LARGEST = 1 << 16, MOST_CHANGES = 6, MOST_SMALL = 12, RULES = 3 };

struct mutator {
    uint64_t random;
    size_t size;
    uint8_t bytes[LARGEST];
};

struct span {
    size_t from, to;
};

static size_t below(struct mutator *it, size_t most) {
    it->random ^= it->random << 13;
    it->random ^= it->random >> 7;
    it->random ^= it->random << 17;
    return most ? (size_t)(it->random % most) : 0;
}

/* A line, with its line feed, round a random place of these bytes. */
static struct span some_line(struct mutator *it, const uint8_t *bytes, size_t size) {
    struct span line = {0, 0};
    if (size == 0)
        return line;
    line.from = line.to = below(it, size);
    while (line.from > 0 && bytes[line.from - 1] != '\n')
        line.from--;
    while (line.to < size && bytes[line.to] != '\n')
        line.to++;
    line.to += line.to < size;
    return line;
}

/* Puts bytes, none of its own, in the place of some of the mutator's. */
static void replace(struct mutator *it, struct span place, const uint8_t *bytes, size_t size) {
    if (it->size - (place.to - place.from) + size > LARGEST)
        return;
    memmove(it->bytes + place.from + size, it->bytes + place.to, it->size - place.to);
    memcpy(it->bytes + place.from, bytes, size);
    it->size += size - (place.to - place.from);
}

/* Brings a line of these bytes in before a random line. */
static void bring(struct mutator *it, const uint8_t *bytes, size_t size) {
    struct span line = some_line(it, bytes, size), place = some_line(it, it->bytes, it->size);
    uint8_t copy[LARGEST];
    memcpy(copy, bytes + line.from, line.to - line.from);
    place.to = place.from;
    replace(it, place, copy, line.to - line.from);
}

/* Brings the line of a rule at DISCONNECT in before all others, where alone it may mostly stand. */
static void bring_rule(struct mutator *it) {
    static const char *const lines[RULES] = {"refill never\n", "refill alone\n", "refill always\n"};
    const char *line = lines[below(it, RULES)];
    struct span start = {0, 0};
    replace(it, start, (const uint8_t *)line, strlen(line));
}

static int is_digit(uint8_t byte) {
    return byte >= '0' && byte <= '9';
}

/* Puts a small number, or now and then a large one, in the place of a number of a random line. */
static void renumber(struct mutator *it) {
    struct span line = some_line(it, it->bytes, it->size), place = line;
    for (size_t at = line.from; at < line.to; at++)
        if (is_digit(it->bytes[at]) && (at == line.from || !is_digit(it->bytes[at - 1])) && below(it, 2)) {
            place.from = place.to = at;
            while (place.to < line.to && is_digit(it->bytes[place.to]))
                place.to++;
        }
    if (place.from == line.from && place.to == line.to)
        return;
    char text[24];
    size_t number = below(it, 16) ? below(it, MOST_SMALL) : (size_t)it->random;
    int length = snprintf(text, sizeof text, "%zu", number);
    replace(it, place, (const uint8_t *)text, (size_t)length);
}

static void change(struct mutator *it, const uint8_t *other, size_t size_of_other) {
    if (below(it, 32) == 0) {
        bring_rule(it);
        return;
    }
    switch (below(it, 6)) {
    case 0:
        replace(it, some_line(it, it->bytes, it->size), NULL, 0);
        break;
    case 1:
        bring(it, other, size_of_other);
        break;
    case 2:
    case 3:
        bring(it, it->bytes, it->size);
        break;
    default:
        renumber(it);
    }
}

void *afl_custom_init(void *fuzzer, unsigned int seed) {
    (void)fuzzer;
    struct mutator *it = malloc(sizeof *it);
    if (it)
        it->random = seed * 2654435761u + 88172645463325252u;
    return it;
}

void afl_custom_deinit(void *it) {
    free(it);
}

size_t afl_custom_fuzz(struct mutator *it, uint8_t *bytes, size_t size, uint8_t **out, uint8_t *other,
                       size_t size_of_other, size_t most) {
    if (most > LARGEST)
        most = LARGEST;
    it->size = size < most ? size : most;
    memcpy(it->bytes, bytes, it->size);
    for (size_t left = 1 + below(it, MOST_CHANGES); left > 0; left--)
        change(it, other, other ? size_of_other : 0);
    *out = it->bytes;
    return it->size < most ? it->size : most;
}
