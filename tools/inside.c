/* What tools/inside runs of the library: `inside annotate|values|undefined|explain < FILE` writes the texts of all
 * records and tells how many there were in which time; `inside conditions` tries what a caller has not kept, and
 * `inside memory` refuses each request for memory in turn; these two end with the number of the first try that went
 * wrong, or 0. It is linked with --wrap=malloc,--wrap=realloc, by which the library's requests come here first. */
#include <cip.h>
#include <stdio.h>
#include <stdlib.h>
#include <string.h>
#include <time.h>

#define TRY(number, holds) if (!(holds)) return number

#define RECORD \
    "bromochlorofluoromethane\n\n\n" \
    "  5  4  0  0  0  0  0  0  0  0999 V2000\n" \
    "    0.0000    0.0000    0.0000 C\n    0.0000    1.0000    0.0000 F\n    1.0000    0.0000    0.0000 Cl\n" \
    "    0.0000   -1.0000    0.0000 Br\n   -1.0000    0.0000    0.0000 H\n" \
    "  1  2  1  0\n  1  3  1  0\n  1  4  1  1\n  1  5  1  0\nM  END\n"
#define SETTINGS "cip 2 rule1b 2018 nodes 100000\n"
#define LABEL "a1 S 1a 1 order 4 3 2 5\n"

static const char record[] = RECORD;
static const char values[] = SETTINGS LABEL;
static const char annotated[] = RECORD "> <CIP_LABELS>\n" SETTINGS LABEL "\n";
static const char explained[] = "record 7\n" LABEL;
static const char values_of_nothing[] = SETTINGS "refused 1 Short\n";

enum { ROOM = 4096 };

static uint8_t bytes[ROOM], text[ROOM];

/* Whether the text has this front, and behind it what it was filled with. */
static int is_written(const char *front, size_t length) {
    if (memcmp(text, front, length) != 0) return 0;
    for (size_t place = length; place < ROOM; place++)
        if (text[place] != '#') return 0;
    return 1;
}

/* The number of the request for memory that is refused, and how many there were. */
static long refused, met;

void *__real_malloc(size_t size);
void *__real_realloc(void *old, size_t size);

void *__wrap_malloc(size_t size) { return ++met == refused ? NULL : __real_malloc(size); }
void *__wrap_realloc(void *old, size_t size) { return ++met == refused ? NULL : __real_realloc(old, size); }

static int64_t call(int which, cip_labeller *labeller, const uint8_t *given, size_t length, uint8_t *to, size_t room) {
    if (which == 0) return cip_annotate(labeller, given, length, to, room);
    if (which == 1) return cip_values(labeller, given, length, to, room);
    if (which == 2) return cip_undefined(labeller, given, length, to, room);
    return cip_explain(labeller, 1, given, length, to, room);
}

static int conditions(void) {
    cip_labeller labeller, around[3];
    size_t length = sizeof record - 1, whole = sizeof values - 1;
    memcpy(bytes, record, length);
    memset(text, '#', ROOM);
    memset(around, '#', sizeof around);
    TRY(1, cip_labeller_size() == sizeof labeller);
    /* bounds and wordings; a labeller that isn't made labels nothing, and is given back all the same */
    TRY(2, cip_make(NULL, CIP_NODES, CIP_WORDING) == CIP_NULL_POINTER && cip_release(NULL) == CIP_NULL_POINTER);
    static const uint32_t bounds[] = {0, 1000001, UINT32_MAX}, years[] = {0, 2012, 2014, 2017, 2019, UINT32_MAX};
    for (size_t place = 0; place < 3; place++) {
        TRY(3, cip_make(&labeller, bounds[place], CIP_WORDING) == CIP_BOUND_OUTSIDE);
        TRY(4, cip_values(&labeller, bytes, length, text, ROOM) == CIP_NOT_MADE && is_written("", 0));
        TRY(5, cip_release(&labeller) == 0 && cip_release(&labeller) == 0);
    }
    for (size_t place = 0; place < 6; place++) {
        TRY(6, cip_make(&labeller, CIP_NODES, years[place]) == CIP_WORDING_UNKNOWN);
        TRY(7, cip_annotate(&labeller, bytes, length, text, ROOM) == CIP_NOT_MADE && is_written("", 0));
    }
    TRY(8, cip_make(&labeller, 1, 2013) == 0 && cip_values(&labeller, bytes, length, text, 0) > 0);
    TRY(9, cip_release(&labeller) == 0);
    TRY(10, cip_make(&labeller, 1000000, 2018) == 0 && cip_release(&labeller) == 0);
    /* a place for a labeller is no larger than it says */
    TRY(11, cip_make(&around[1], CIP_NODES, CIP_WORDING) == 0);
    TRY(12, cip_values(&around[1], bytes, length, text, whole) == (int64_t)whole && is_written(values, whole));
    for (size_t place = 0; place < sizeof around[0]; place++)
        TRY(13, ((char *)&around[0])[place] == '#' && ((char *)&around[2])[place] == '#');
    /* pointers that are null, whatever the lengths are */
    memset(text, '#', ROOM);
    for (int which = 0; which < 4; which++) {
        TRY(14, call(which, NULL, bytes, length, text, ROOM) == CIP_NULL_POINTER && is_written("", 0));
        TRY(15, call(which, &around[1], NULL, length, text, ROOM) == CIP_NULL_POINTER && is_written("", 0));
        TRY(16, call(which, &around[1], NULL, 0, text, ROOM) == CIP_NULL_POINTER && is_written("", 0));
        TRY(17, call(which, &around[1], bytes, length, NULL, ROOM) == CIP_NULL_POINTER);
        TRY(18, call(which, &around[1], bytes, length, NULL, 0) == CIP_NULL_POINTER);
        TRY(19, call(which, NULL, NULL, 0, NULL, 0) == CIP_NULL_POINTER);
    }
    /* a record that is too long, where there is as much memory */
    uint8_t *large = calloc((size_t)1 << 31, 1);
    for (int which = 0; large && which < 4; which++)
        TRY(20, call(which, &around[1], large, (size_t)1 << 31, text, ROOM) == CIP_RECORD_TOO_LONG);
    free(large);
    /* too little room: the front, and the count of the whole */
    for (size_t room = 0; room <= whole; room++) {
        memset(text, '#', ROOM);
        TRY(21, cip_values(&around[1], bytes, length, text, room) == (int64_t)whole && is_written(values, room));
    }
    /* a record of no byte */
    memset(text, '#', ROOM);
    TRY(22, cip_values(&around[1], bytes, 0, text, ROOM) == 47 && is_written(values_of_nothing, 47));
    memset(text, '#', ROOM);
    TRY(23, cip_undefined(&around[1], bytes, 0, text, ROOM) == 16 && is_written(values_of_nothing + 31, 16));
    /* the other texts of the record, whose one centre has a label */
    size_t with_item = sizeof annotated - 1, told = sizeof explained - 1;
    memset(text, '#', ROOM);
    TRY(24, cip_undefined(&around[1], bytes, length, text, ROOM) == 0 && is_written("", 0));
    TRY(25, cip_annotate(&around[1], bytes, length, text, ROOM) == (int64_t)with_item && is_written(annotated, with_item));
    memset(text, '#', ROOM);
    TRY(26, cip_explain(&around[1], 7, bytes, length, text, ROOM) == (int64_t)told && is_written(explained, told));
    TRY(27, cip_release(&around[1]) == 0);
    memset(text, '#', ROOM);
    TRY(28, cip_annotate(&around[1], bytes, length, text, ROOM) == CIP_NOT_MADE && is_written("", 0));
    return 0;
}

/* A refused request is answered, changes nothing, and a second call does what the first should have. */
static int memory(void) {
    size_t length = sizeof record - 1, whole = sizeof values - 1;
    memcpy(bytes, record, length);
    for (long number = 1;; number++) {
        cip_labeller labeller;
        memset(text, '#', ROOM);
        refused = number;
        met = 0;
        int64_t told = cip_make(&labeller, CIP_NODES, CIP_WORDING);
        if (told != 0) {
            TRY(29, told == CIP_NO_MEMORY && cip_values(&labeller, bytes, length, text, ROOM) == CIP_NOT_MADE);
            TRY(30, cip_release(&labeller) == 0 && cip_make(&labeller, CIP_NODES, CIP_WORDING) == 0);
        }
        for (int which = 0; which < 4; which++) {
            memset(text, '#', ROOM);
            told = call(which, &labeller, bytes, length, text, ROOM);
            TRY(31, told >= 0 || (told == CIP_NO_MEMORY && is_written("", 0)));
        }
        int is_met = met >= number;
        refused = 0;
        memset(text, '#', ROOM);
        TRY(32, cip_values(&labeller, bytes, length, text, ROOM) == (int64_t)whole && is_written(values, whole));
        TRY(33, cip_release(&labeller) == 0);
        if (!is_met) return fprintf(stderr, "%ld\n", number - 1) < 0;
    }
}

static uint8_t *all_of_input(size_t *length) {
    size_t room = 1 << 20, count;
    uint8_t *found = malloc(room);
    for (*length = 0; found && (count = fread(found + *length, 1, room - *length, stdin)) > 0;) {
        *length += count;
        if (*length == room) found = realloc(found, room *= 2);
    }
    return found;
}

/* The place behind the next line `$$$$`, which may have spaces behind it. */
static size_t record_end(const uint8_t *all, size_t place, size_t length) {
    while (place < length) {
        const uint8_t *line = all + place, *feed = memchr(line, '\n', length - place);
        size_t end = feed ? (size_t)(feed - all) + 1 : length, at = 4;
        int is_terminator = end - place >= 4 && memcmp(line, "$$$$", 4) == 0;
        while (is_terminator && place + at < end && line[at] == ' ') at++;
        if (is_terminator && feed && place + at < end && line[at] == '\r') at++;
        place = end;
        if (is_terminator && feed && line + at == feed) break;
    }
    return place;
}

static int texts(int which) {
    size_t length, room = 1;
    uint64_t number = 0;
    uint8_t *all = all_of_input(&length), *to = calloc(room, 1);
    cip_labeller labeller;
    if (!all || !to || cip_make(&labeller, CIP_NODES, CIP_WORDING) != 0) return 5;
    clock_t spent = 0;
    for (size_t place = 0, end; place < length; place = end) {
        end = record_end(all, place, length);
        number++;
        for (;;) {
            clock_t began = clock();
            int64_t whole = which == 3 ? cip_explain(&labeller, number, all + place, end - place, to, room)
                                       : call(which, &labeller, all + place, end - place, to, room);
            spent += clock() - began;
            if (whole < 0) return 1;
            if ((size_t)whole <= room) {
                fwrite(to, 1, (size_t)whole, stdout);
                break;
            }
            free(to);
            to = calloc(room = 2 * (size_t)whole, 1);
            if (!to) return 5;
        }
    }
    cip_release(&labeller);
    fprintf(stderr, "%llu %.6f\n", (unsigned long long)number, (double)spent / CLOCKS_PER_SEC);
    free(all);
    free(to);
    return 0;
}

int main(int count, char **words) {
    static const char *const names[] = {"annotate", "values", "undefined", "explain"};
    if (count == 2 && strcmp(words[1], "conditions") == 0) return conditions();
    if (count == 2 && strcmp(words[1], "memory") == 0) return memory();
    for (int which = 0; count == 2 && which < 4; which++)
        if (strcmp(words[1], names[which]) == 0) return texts(which);
    return 2;
}
