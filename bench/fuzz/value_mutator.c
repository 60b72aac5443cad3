/* A mutator of JSON for afl-fuzz (AFL_CUSTOM_MUTATOR_LIBRARY), beside its own, which changes bytes: puts deep, long
 * and odd values in the place of others, copies, swaps and takes out values and members, writes keys twice and with
 * escapes, and cuts the text or writes it in another encoding. Built by fuzz.py. */
#include <stdint.h>
#include <stdio.h>
#include <stdlib.h>
#include <string.h>

enum { LARGEST = 1 << 16, MOST_CHANGES = 4, MOST_VALUES = 4096, DEEPEST = 127, LONGEST_NUMBER = 4000 };

/* A value in the text, or the string of a key. `deep` says how many lists and objects it is in. */
struct span {
    size_t from, to, deep;
    int is_key;
};

struct mutator {
    uint64_t random;
    size_t size, values;
    uint8_t bytes[LARGEST], made[LARGEST];
    struct span value[MOST_VALUES];
};

static size_t below(struct mutator *it, size_t most) {
    it->random ^= it->random << 13;
    it->random ^= it->random >> 7;
    it->random ^= it->random << 17;
    return most ? (size_t)(it->random % most) : 0;
}

/* Puts bytes, none of the text, in the place of some of the text. */
static void replace(struct mutator *it, size_t from, size_t to, const uint8_t *bytes, size_t size) {
    if (it->size - (to - from) + size > LARGEST)
        return;
    memmove(it->bytes + from + size, it->bytes + to, it->size - to);
    memcpy(it->bytes + from, bytes, size);
    it->size += size - (to - from);
}

static void put(struct mutator *it, size_t *size, const char *text) {
    for (; *text && *size < LARGEST; text++)
        it->made[(*size)++] = (uint8_t)*text;
}

/* Where the string or the word ends that begins here. */
static size_t end_of(const struct mutator *it, size_t at) {
    if (it->bytes[at] == '"') {
        for (at++; at < it->size && it->bytes[at] != '"'; at++)
            at += it->bytes[at] == '\\';
        return at < it->size ? at + 1 : it->size;
    }
    while (at < it->size && !strchr(" \t\r\n,:[]{}\"", it->bytes[at] ? it->bytes[at] : 'x'))
        at++;
    return at;
}

/* Finds the values of the text, also of one that is no JSON. */
static void find_values(struct mutator *it) {
    size_t open[MOST_VALUES], deep = 0;
    it->values = 0;
    for (size_t at = 0; at < it->size && it->values < MOST_VALUES;) {
        uint8_t byte = it->bytes[at];
        struct span found = {at, it->size, deep, 0};
        if (byte == '[' || byte == '{') {
            open[deep++] = it->values;
            it->value[it->values++] = found;
        } else if ((byte == ']' || byte == '}') && deep > 0) {
            it->value[open[--deep]].to = at + 1;
        } else if (byte == ':' && it->values > 0) {
            it->value[it->values - 1].is_key = 1;
        } else if (!byte || !strchr(" \t\r\n,]}", byte)) {
            found.to = end_of(it, at);
            it->value[it->values++] = found;
            at = found.to > at ? found.to : at + 1;
            continue;
        }
        at++;
    }
}

/* A random value; of keys, if they are asked for, or of others. None is told by an end at 0. */
static struct span some(struct mutator *it, int is_key) {
    struct span none = {0, 0, 0, 0};
    size_t first = below(it, it->values);
    for (size_t step = 0; step < it->values; step++) {
        struct span found = it->value[(first + step) % it->values];
        if (found.is_key == is_key)
            return found;
    }
    return none;
}

/* Lists and objects round a value, so many that it is just as deep as may be, or nearly, or too deep. */
static void nest(struct mutator *it, struct span at) {
    static const char *const opening[] = {"[", "{\"a\":", "[1,"}, *const closing[] = {"]", "}", "]"};
    size_t levels = DEEPEST - 3 + below(it, 7), size = 0, kind = below(it, 4);
    uint8_t kinds[DEEPEST + 8];
    levels = levels > at.deep ? levels - at.deep : 1;
    for (size_t level = 0; level < levels; level++) {
        kinds[level] = (uint8_t)(kind < 3 ? kind : below(it, 3));
        put(it, &size, opening[kinds[level]]);
    }
    put(it, &size, below(it, 2) ? "1" : "[]");
    for (size_t level = levels; level > 0; level--)
        put(it, &size, closing[kinds[level - 1]]);
    replace(it, at.from, at.to, it->made, size);
}

static void put_digits(struct mutator *it, size_t *size, size_t count) {
    for (; count > 0 && *size < LARGEST; count--)
        it->made[(*size)++] = (uint8_t)('0' + (below(it, 3) ? below(it, 10) : 0));
}

/* A number with many digits, a fraction or an exponent, or at a limit. */
static void number(struct mutator *it, struct span at) {
    static const char *const odd[] = {
        "-0", "-1", "1.0", "1e0", "1E+2", "0.0", "-0.0", "1e400", "-1e400", "1e-400", "1e308", "1.8e308",
        "0e999999999999999999999", "1e-99999999999999999999", "01", "+1", "1.", ".1", "1e", "1e+", "--1", "NaN",
        "Infinity", "-Infinity", "0x1", "4294967295", "4294967296", "18446744073709551615", "18446744073709551616",
        "65536", "65537", "1_0", "1f", "-"
    };
    size_t size = 0, longest = below(it, 2) ? 320 : LONGEST_NUMBER;
    if (below(it, 2)) {
        put(it, &size, odd[below(it, sizeof odd / sizeof odd[0])]);
    } else {
        put(it, &size, below(it, 3) ? "1" : "-1");
        put_digits(it, &size, below(it, longest));
        if (below(it, 3) == 0) {
            put(it, &size, ".");
            put_digits(it, &size, 1 + below(it, longest));
        }
        if (below(it, 3) == 0) {
            put(it, &size, below(it, 2) ? "e-" : "e");
            put_digits(it, &size, 1 + below(it, below(it, 2) ? 4 : 30));
        }
    }
    replace(it, at.from, at.to, it->made, size);
}

/* A string with escapes, halves of surrogate pairs, and bytes that belong to no text. */
static void string(struct mutator *it, struct span at) {
    static const char *const parts[] = {
        "\\n", "\\\"", "\\\\", "\\/", "\\b", "\\f", "\\r", "\\t", "\\u0041", "\\u0000", "\\ud83d", "\\ude00",
        "\\ud83d\\ude00", "\\uD83D\\uDE00", "\\uffff", "\\u12", "\\x", "\\u00e9", "a", "split", "linked", "\xc3\xa9",
        "\xf0\x9f\x98\x80", "\xed\xa0\x80", "\xc0\x80", "\xf4\x90\x80\x80", "\x80", "\x01", "\x7f", "\t", "\n"
    };
    size_t size = 0, count = below(it, below(it, 8) ? 6 : 600);
    put(it, &size, "\"");
    for (; count > 0; count--)
        put(it, &size, parts[below(it, sizeof parts / sizeof parts[0])]);
    put(it, &size, "\"");
    replace(it, at.from, at.to, it->made, size);
}

/* Writes one character of a string as an escape. */
static void escape(struct mutator *it, struct span at) {
    char text[8];
    size_t place = at.from + 1 + below(it, at.to > at.from + 2 ? at.to - at.from - 2 : 1);
    if (at.to < at.from + 3 || it->bytes[at.from] != '"' || it->bytes[place] == '\\' || it->bytes[place] >= 0x80)
        return;
    int size = snprintf(text, sizeof text, below(it, 2) ? "\\u%04x" : "\\u%04X", it->bytes[place]);
    replace(it, place, place + 1, (const uint8_t *)text, (size_t)size);
}

/* Copies the text of a value to before another one, and a comma behind it; or the key of a member too. */
static void copy(struct mutator *it, struct span what, struct span where, int is_member) {
    size_t size = 0, from = what.from, to = what.to;
    if (is_member) {
        // the key, the colon and the value behind it
        for (size_t at = 0; at + 1 < it->values; at++)
            if (it->value[at].from == what.from)
                to = it->value[at + 1].to;
    }
    if (to < from || to - from + 1 > LARGEST)
        return;
    memcpy(it->made, it->bytes + from, to - from);
    size = to - from;
    put(it, &size, ",");
    replace(it, where.from, where.from, it->made, size);
}

/* Takes out a value, and a comma beside it if there is one. */
static void take_out(struct mutator *it, struct span at) {
    if (at.to < it->size && it->bytes[at.to] == ',')
        at.to++;
    else if (at.from > 0 && it->bytes[at.from - 1] == ',')
        at.from--;
    replace(it, at.from, at.to, it->made, 0);
}

/* Puts the text of a value in the place of another one. */
static void put_in_place(struct mutator *it, struct span what, struct span where) {
    memcpy(it->made, it->bytes + what.from, what.to - what.from);
    replace(it, where.from, where.to, it->made, what.to - what.from);
}

/* Writes each byte as two, in either order. */
static void to_utf16(struct mutator *it) {
    size_t size = 0, high = below(it, 2);
    if (it->size * 2 + 2 > LARGEST)
        return;
    if (below(it, 2)) {
        it->made[size++] = high ? 0xfe : 0xff;
        it->made[size++] = high ? 0xff : 0xfe;
    }
    for (size_t at = 0; at < it->size; at++) {
        it->made[size++] = high ? 0 : it->bytes[at];
        it->made[size++] = high ? it->bytes[at] : 0;
    }
    replace(it, 0, it->size, it->made, size);
}

/* Changes the text without a look at its values. */
static void change_text(struct mutator *it) {
    static const char *const more[] = {
        " ", "\n", "\t", "\r\n", "x", "}", "]", ",", "{}", "null", "\v", "\xc2\xa0", "\xef\xbb\xbf"
    };
    const char *text = more[below(it, sizeof more / sizeof more[0])];
    size_t place = below(it, it->size + 1);
    switch (below(it, 12)) {
    case 0:
        replace(it, 0, 0, (const uint8_t *)"\xef\xbb\xbf", 3);
        break;
    case 1:
        to_utf16(it);
        break;
    case 2:
        replace(it, place, place, (const uint8_t *)"", 1);
        break;
    case 3:
    case 4:
        it->size = place;
        break;
    case 5:
    case 6:
        replace(it, it->size, it->size, (const uint8_t *)text, strlen(text));
        break;
    default:
        replace(it, place, place, (const uint8_t *)text, strlen(text));
    }
}

static void change(struct mutator *it) {
    find_values(it);
    struct span value = some(it, 0), other = some(it, 0), key = some(it, 1), other_key = some(it, 1);
    size_t kind = below(it, 32);
    if (kind == 0 || value.to == 0)
        change_text(it);
    else if (kind < 3)
        nest(it, value);
    else if (kind < 8)
        number(it, value);
    else if (kind < 10)
        string(it, below(it, 2) && key.to ? key : value);
    else if (kind < 12)
        escape(it, below(it, 4) && key.to ? key : value);
    else if (kind < 17 && key.to)
        copy(it, key, other_key, 1);
    else if (kind < 19)
        copy(it, value, other, 0);
    else if (kind < 22)
        take_out(it, value);
    else if (kind < 24 && key.to)
        put_in_place(it, key, other_key);
    else
        put_in_place(it, value, other);
}

void *afl_custom_init(void *fuzzer, unsigned int seed) {
    (void)fuzzer;
    struct mutator *it = malloc(sizeof *it);
    if (it)
        it->random = seed * 2654435761u + 88172645463325252u;
    return it;
}

void afl_custom_deinit(void *it) {
    free(it);
}

size_t afl_custom_fuzz(struct mutator *it, uint8_t *bytes, size_t size, uint8_t **out, uint8_t *other,
                       size_t size_of_other, size_t most) {
    (void)other, (void)size_of_other;
    if (most > LARGEST)
        most = LARGEST;
    it->size = size < most ? size : most;
    memcpy(it->bytes, bytes, it->size);
    for (size_t left = 1 + below(it, MOST_CHANGES); left > 0; left--)
        change(it);
    *out = it->bytes;
    return it->size < most ? it->size : most;
}
