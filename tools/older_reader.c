/* older_reader write FILE W H D: makes lists of these axes and writes them as a volume file by the library. older_reader read FILE W H D: reads the file by the
 * library, and says what its three readers answer. A reader either gives the lists back bit for bit, or refuses the file and leaves all that it was lent as it
 * was: anything else ends it with status 1. tools/older-reader builds it against two versions of include/geaidnosa.h. */
#include <stdio.h>
#include <stdlib.h>
#include <string.h>

#include "geaidnosa.h"

/* before 0.4.0 the header did not name it */
#ifndef GEAIDNOSA_AXIS_LIMIT
#define GEAIDNOSA_AXIS_LIMIT 32
#endif

/* before 0.2.0 a mask had a byte a voxel */
#if GEAIDNOSA_VERSION_NUMBER < 2000
typedef uint8_t Mask;
static size_t mask_length(size_t n) { return n; }
static void mark(Mask *mask, size_t i) { mask[i] = 1; }
#else
typedef uint64_t Mask;
static size_t mask_length(size_t n) { return (n + 63) / 64; }
static void mark(Mask *mask, size_t i) { mask[i / 64] |= (uint64_t)1 << (i % 64); }
#endif

static const GeaidnosaCorners corners = {{-1, -2, -3}, {31, 62, 125}};

typedef struct Lists {
    size_t n, mask;
    float *light, *volume;
    Mask *occupied, *active;
} Lists;

static void fail(const char *what) {
    fprintf(stderr, "older_reader: %s\n", what);
    exit(1);
}

static void *room_of(size_t bytes) {
    void *room = malloc(bytes);
    if (!room) fail("no memory");
    return room;
}

/* lists of a grid's lengths, every byte of them this one */
static Lists lists_of(GeaidnosaAxes a, int byte) {
    Lists l = {.n = a.width * a.height * a.depth};
    l.mask = mask_length(l.n);
    l.light = memset(room_of(4 * l.n), byte, 4 * l.n);
    l.volume = memset(room_of(64 * l.n), byte, 64 * l.n);
    l.occupied = memset(room_of(l.mask * sizeof(Mask)), byte, l.mask * sizeof(Mask));
    l.active = memset(room_of(l.mask * sizeof(Mask)), byte, l.mask * sizeof(Mask));
    return l;
}

static int same_lists(const Lists *a, const Lists *b) {
    return !memcmp(a->light, b->light, 4 * a->n) && !memcmp(a->volume, b->volume, 64 * a->n) && !memcmp(a->occupied, b->occupied, a->mask * sizeof(Mask)) &&
           !memcmp(a->active, b->active, a->mask * sizeof(Mask));
}

/* numbers that look like chance and are the same in every run: finite, of both signs, below 2^64 in magnitude */
static uint64_t seed;

static uint32_t chance(void) {
    seed = seed * 6364136223846793005u + 1442695040888963407u;
    return (uint32_t)(seed >> 32);
}

static void fill(float *list, size_t count) {
    for (size_t i = 0; i < count; i++) {
        const uint32_t bits = (chance() & 0x807fffffu) | (chance() % 191) << 23;
        memcpy(&list[i], &bits, sizeof bits);
    }
}

static Lists made(GeaidnosaAxes a) {
    Lists l = lists_of(a, 0);
    seed = 1;
    fill(l.light, l.n);
    fill(l.volume, 16 * l.n);
    for (size_t i = 0; i < l.n; i++) {
        if (chance() >> 31) mark(l.occupied, i);
        if (chance() >> 31) mark(l.active, i);
    }
    return l;
}

static void write_file(const char *path, GeaidnosaAxes a) {
    const Lists l = made(a);
    const GeaidnosaNeeded needed = geaidnosa_volume_bytes(a);
    if (needed.refusal) fail("the library has no file of these axes");
    uint8_t *bytes = room_of(needed.bytes);
    if (geaidnosa_write_volume(a, corners, l.light, l.n, l.volume, 16 * l.n, l.occupied, l.mask, l.active, l.mask, bytes, needed.bytes)) fail("the lists are refused");
    FILE *file = fopen(path, "wb");
    if (!file || fwrite(bytes, 1, needed.bytes, file) != needed.bytes || fclose(file)) fail("the file cannot be written");
}

static uint8_t *file_bytes(const char *path, size_t *length) {
    FILE *file = fopen(path, "rb");
    if (!file || fseek(file, 0, SEEK_END)) fail("the file cannot be read");
    const long end = ftell(file);
    if (end < 0 || fseek(file, 0, SEEK_SET)) fail("the file cannot be read");
    *length = (size_t)end;
    uint8_t *bytes = room_of(*length ? *length : 1);
    if (fread(bytes, 1, *length, file) != *length) fail("the file cannot be read");
    fclose(file);
    return bytes;
}

static GeaidnosaHead read_into(const uint8_t *bytes, size_t length, Lists *l) {
    return geaidnosa_read_volume(bytes, length, l->light, l->n, l->volume, 16 * l->n, l->occupied, l->mask, l->active, l->mask);
}

static int nothing(GeaidnosaHead head) {
    const GeaidnosaHead none = {.refusal = head.refusal};
    return !memcmp(&head.axes, &none.axes, sizeof none.axes) && !memcmp(&head.corners, &none.corners, sizeof none.corners);
}

static size_t least(size_t a) { return a < GEAIDNOSA_AXIS_LIMIT ? a : GEAIDNOSA_AXIS_LIMIT; }

static void read_file(const char *path, GeaidnosaAxes a) {
    size_t length;
    uint8_t *bytes = file_bytes(path, &length);
    const GeaidnosaAxes cut = {least(a.width), least(a.height), least(a.depth)};
    const int beyond = memcmp(&a, &cut, sizeof a) != 0;
    const GeaidnosaHead head = geaidnosa_file_axes(bytes, length);
    const GeaidnosaFigures figures = geaidnosa_file_figures(bytes, length);
    Lists own = lists_of(a, 0xa5);
    const GeaidnosaHead read = read_into(bytes, length, &own);
    printf("file_axes %u, read_volume %u, file_figures %u: ", head.refusal, read.refusal, figures.refusal);
    if (beyond) {
        /* lent lists of the file's lengths, and those of a grid that is cut to the limit */
        const Lists before = lists_of(a, 0xa5), part_before = lists_of(cut, 0xa5);
        Lists part = lists_of(cut, 0xa5);
        const GeaidnosaHead again = read_into(bytes, length, &part);
        if (head.refusal != 12 || read.refusal != 12 || again.refusal != 12 || figures.refusal != (length > 65536 ? 14 : 12)) fail("another answer than 12 to an axis beyond the limit");
        if (!nothing(head) || !nothing(read) || !nothing(again) || figures.width || figures.height || figures.depth || figures.occupied || figures.active || figures.zeros)
            fail("a number in the answer of a refusal");
        if (!same_lists(&own, &before) || !same_lists(&part, &part_before)) fail("a list was written in part");
        printf("refused, every list as it was\n");
    } else {
        const Lists written = made(a);
        if (head.refusal || read.refusal || figures.refusal != (length > 65536 ? 14 : 0)) fail("a file within the limit is refused");
        if (memcmp(&head.axes, &a, sizeof a) || memcmp(&read.axes, &a, sizeof a) || memcmp(&read.corners, &corners, sizeof corners)) fail("other axes or corners than written");
        if (!same_lists(&own, &written)) fail("other lists than written");
        printf("read, every bit as written\n");
    }
}

int main(int count, char **words) {
    if (count != 6) fail("usage: older_reader write|read FILE W H D");
    const GeaidnosaAxes a = {strtoul(words[3], NULL, 10), strtoul(words[4], NULL, 10), strtoul(words[5], NULL, 10)};
    if (!strcmp(words[1], "write"))
        write_file(words[2], a);
    else if (!strcmp(words[1], "read"))
        read_file(words[2], a);
    else
        fail("usage: older_reader write|read FILE W H D");
    return 0;
}
