/* hall OUT [SHARES]: reads the lists of a hall on standard input, as `plate lists` writes them, makes masks and sun, bakes, and writes the volume file OUT. With
 * SHARES the active voxels are dealt out in turn, each share is baked by itself and joined. plate/same-hall builds and runs it. */
#include <stdio.h>
#include <stdlib.h>
#include <string.h>

#include "geaidnosa.h"

enum { TRIANGLES = 4096, MATERIALS = 256, SKY = 1728, LAMPS = 8 };

static GeaidnosaAxes axes;
static float corner_numbers[6], light_numbers[6], ambient_numbers[12], points[9 * TRIANGLES], numbers[7 * MATERIALS], sky[SKY], lamps[6 * LAMPS];
static uint32_t uses[TRIANGLES];
static uint8_t kinds[MATERIALS];
static size_t triangles, materials, lamp_count, places[TRIANGLES];
static float distances[TRIANGLES];

static void fail(const char *what, const char *more) {
    fprintf(stderr, "hall: %s %s\n", what, more);
    exit(1);
}

static void good(const char *call, uint32_t refusal) {
    if (!refusal) return;
    fprintf(stderr, "hall: %s refuses %u\n", call, refusal);
    exit(1);
}

/* A list of zeros, which the end of the program gives back. */
static void *list_of(size_t count, size_t size) {
    void *list = calloc(count, size);
    if (!list) fail("no memory for a grid of these axes", "");
    return list;
}

static int outside(size_t axis) { return axis < 1 || axis > GEAIDNOSA_AXIS_LIMIT; }

static size_t whole(void) {
    char *word = strtok(NULL, " \n"), *end;
    if (!word) fail("a whole number is missing", "");
    size_t number = strtoul(word, &end, 10);
    if (*end) fail("no whole number:", word);
    return number;
}

/* Numbers by their bits: # and eight hexadecimal digits each. */
static void floats(float *list, size_t count) {
    for (size_t i = 0; i < count; i++) {
        char *word = strtok(NULL, " \n"), *end;
        if (!word || word[0] != '#' || strlen(word) != 9) fail("no number's bits:", word ? word : "the line ends");
        uint32_t bits = (uint32_t)strtoul(word + 1, &end, 16);
        if (*end) fail("no number's bits:", word);
        memcpy(&list[i], &bits, sizeof bits);
    }
}

static void read_lists(void) {
    char line[1024];
    while (fgets(line, sizeof line, stdin)) {
        char *name = line[0] == '#' ? NULL : strtok(line, " \n");
        if (!name) continue;
        if (!strcmp(name, "axes")) {
            axes.width = whole();
            axes.height = whole();
            axes.depth = whole();
        } else if (!strcmp(name, "corners")) {
            floats(corner_numbers, 6);
        } else if (!strcmp(name, "material") && materials < MATERIALS) {
            kinds[materials] = (uint8_t)whole();
            floats(&numbers[7 * materials++], 7);
        } else if (!strcmp(name, "triangle") && triangles < TRIANGLES) {
            uses[triangles] = (uint32_t)whole();
            floats(&points[9 * triangles++], 9);
        } else if (!strcmp(name, "light")) {
            floats(light_numbers, 6);
        } else if (!strcmp(name, "ambient")) {
            floats(ambient_numbers, 12);
        } else if (!strcmp(name, "sky")) {
            size_t place = whole();
            if (place >= SKY / 3) fail("a sky's place past 575", "");
            floats(&sky[3 * place], 3);
        } else if (!strcmp(name, "lamp") && lamp_count < LAMPS) {
            floats(&lamps[6 * lamp_count++], 6);
        } else {
            fail("no statement, or one too many:", name);
        }
        if (strtok(NULL, " \n")) fail("more than it takes:", name);
    }
    if (!outside(axes.width) && !outside(axes.height) && !outside(axes.depth)) return;
    fprintf(stderr, "hall: %zu × %zu × %zu: an axis outside 1..%d\n", axes.width, axes.height, axes.depth, GEAIDNOSA_AXIS_LIMIT);
    exit(1);
}

int main(int count, char **words) {
    size_t shares = count == 3 ? strtoul(words[2], NULL, 10) : 1;
    if (count < 2 || count > 3 || shares < 1) fail("usage: hall OUT [SHARES] < LISTS", "");
    read_lists();
    GeaidnosaCorners corners;
    GeaidnosaLight light;
    GeaidnosaAmbient ambient;
    memcpy(&corners, corner_numbers, sizeof corners);
    memcpy(&light, light_numbers, sizeof light);
    memcpy(&ambient, ambient_numbers, sizeof ambient);
    const size_t n = axes.width * axes.height * axes.depth, mask_words = (n + 63) / 64;
    uint64_t *occupied = list_of(mask_words, sizeof *occupied), *active = list_of(mask_words, sizeof *active), *share = list_of(mask_words, sizeof *share);
    float *lights = list_of(n, sizeof *lights), *lights_scratch = list_of(n, sizeof *lights_scratch);
    float *volume = list_of(16 * n, sizeof *volume), *scratch = list_of(16 * n, sizeof *scratch), *joined = shares > 1 ? list_of(16 * n, sizeof *joined) : NULL;
    const GeaidnosaMarked marked = geaidnosa_masks(axes, corners, points, 9 * triangles, occupied, mask_words, active, mask_words);
    good("masks", marked.refusal);
    const GeaidnosaSunned sunned = geaidnosa_sun(axes, corners, points, 9 * triangles, uses, triangles, kinds, materials, numbers, 7 * materials, light.direction,
                                                 active, mask_words, lights, n, lights_scratch, n, distances, triangles, places, triangles);
    good("sun", sunned.refusal);
    uint64_t rays = 0;
    for (size_t s = 0; s < shares; s++) {
        size_t turn = 0, own = 0;
        memset(share, 0, mask_words * sizeof *share);
        for (size_t i = 0; i < n; i++) {
            if (!((active[i / 64] >> (i % 64)) & 1) || turn++ % shares != s) continue;
            share[i / 64] |= (uint64_t)1 << (i % 64);
            own++;
        }
        GeaidnosaProgress progress = {0, 0};
        while (progress.next < n) {
            const GeaidnosaBakeAnswer baked = geaidnosa_bake(axes, corners, points, 9 * triangles, uses, triangles, kinds, materials, numbers, 7 * materials, light, ambient, sky, SKY, lamps,
                                   6 * lamp_count, share, mask_words, lights, n, volume, 16 * n, scratch, 16 * n, distances, triangles, places, triangles,
                                   progress, 100000);
            good("bake", baked.refusal);
            progress = baked.progress;
        }
        rays += progress.rays;
        const float *unblurred = own ? scratch : volume;
        if (shares > 1 && s == 0) memcpy(joined, unblurred, 16 * n * sizeof *joined);
        if (s > 0) good("join", geaidnosa_join(axes, share, mask_words, unblurred, 16 * n, joined, 16 * n));
    }
    if (shares > 1) {
        memcpy(volume, joined, 16 * n * sizeof *volume);
        if (marked.active) good("coefficient_blur", geaidnosa_coefficient_blur(axes, volume, 16 * n, scratch, 16 * n));
    }
    const GeaidnosaNeeded needed = geaidnosa_volume_bytes(axes);
    good("volume_bytes", needed.refusal);
    uint8_t *bytes = list_of(needed.bytes, 1);
    good("write_volume", geaidnosa_write_volume(axes, corners, lights, n, volume, 16 * n, occupied, mask_words, active, mask_words, bytes, needed.bytes));
    FILE *out = fopen(words[1], "wb");
    if (!out || fwrite(bytes, 1, needed.bytes, out) != needed.bytes || fclose(out)) fail("cannot write", words[1]);
    printf("%llu %llu\n", (unsigned long long)sunned.rays, (unsigned long long)rays);
    return 0;
}
