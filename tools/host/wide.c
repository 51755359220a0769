/* Grids at the axis limit, through include/geaidnosa.h from masks to file: a row of it along each axis, a slab of more voxels than two bytes count, and every
 * call refused past it. One line for each check, as in host.c; tools/host/run builds and runs it. */
#include <math.h>
#include <stdio.h>
#include <stdlib.h>
#include <string.h>

#include "geaidnosa.h"

enum { LIMIT = GEAIDNOSA_AXIS_LIMIT, T = 2, M = 1, SKY = 1728, SLAB = 5, CALLS = 16 };

static int failures = 0;
static char name[64];

static void check(const char *what, int good) {
    printf("%s %s: %s\n", good ? "ok" : "DIFFERS", name, what);
    failures += !good;
}

static uint64_t sum_on(uint64_t h, const void *list, size_t bytes) {
    const unsigned char *p = list;
    for (size_t i = 0; i < bytes; i++) h = (h ^ p[i]) * 0x100000001b3u;
    return h;
}

static uint64_t sum_of(const void *list, size_t bytes) { return sum_on(0xcbf29ce484222325u, list, bytes); }

static void *list_of(size_t count, size_t size) {
    void *list = calloc(count ? count : 1, size);
    if (!list) {
        fprintf(stderr, "wide: no memory for %zu times %zu bytes\n", count, size);
        exit(2);
    }
    return list;
}

/* ---- a grid of voxels of edge 1 with all its lists, and its scene: one small triangle in its last voxel and one in the voxel `near` */

typedef struct Grid {
    GeaidnosaAxes axes;
    GeaidnosaCorners corners;
    size_t n, words, bytes, near;
    uint64_t *occupied, *active;
    float *light, *light_scratch, *volume, *scratch, points[9 * T];
    uint8_t *file;
} Grid;

static const uint32_t uses[T] = {0, 0};
static const uint8_t kinds[M] = {0};
static const float numbers[7 * M] = {0.8f, 0.7f, 0.6f, 1, 0.5f, 0.25f, 0};
static const GeaidnosaLight sun = {{0.1f, 0.2f, 0.9f}, {3, 2.5f, 2}};
static const GeaidnosaAmbient ambient = {{0.2f, 0.25f, 0.3f}, {0.01f, 0.02f, 0.03f}, {0.05f, 0.05f, 0.05f}, {0.01f, 0, 0.01f}};
static const GeaidnosaProgress begin = {0, 0};
static float sky[SKY], distances[T];
static size_t places[T];

static GeaidnosaAxes axes_of(size_t width, size_t height, size_t depth) {
    GeaidnosaAxes a = {width, height, depth};
    return a;
}

/* one axis of this number, the others 1 */
static GeaidnosaAxes along(int axis, size_t number) { return axes_of(axis == 0 ? number : 1, axis == 1 ? number : 1, axis == 2 ? number : 1); }

static size_t least(size_t a, size_t b) { return a < b ? a : b; }

static float larger(float a, float b) { return a < b ? b : a; }

static void triangle(Grid *g, int place, size_t x, size_t y, size_t z) {
    const float p[9] = {0.1f, 0.1f, 0.2f, 0.9f, 0.1f, 0.5f, 0.1f, 0.9f, 0.8f}, at[3] = {(float)x, (float)y, (float)z};
    for (int i = 0; i < 9; i++) g->points[9 * place + i] = at[i % 3] + p[i];
}

static Grid grid_of(GeaidnosaAxes a) {
    Grid g = {.axes = a, .corners = {{0, 0, 0}, {(float)a.width, (float)a.height, (float)a.depth}}, .n = a.width * a.height * a.depth};
    const size_t x = a.width * 5 / 16, y = a.height * 9 / 16, z = a.depth * 25 / 32;
    g.words = (g.n + 63) / 64;
    g.bytes = 96 + 70 * g.n;
    g.near = x + a.width * (y + a.height * z);
    triangle(&g, 0, a.width - 1, a.height - 1, a.depth - 1);
    triangle(&g, 1, x, y, z);
    g.occupied = list_of(g.words, sizeof(uint64_t));
    g.active = list_of(g.words, sizeof(uint64_t));
    g.light = list_of(g.n, sizeof(float));
    g.light_scratch = list_of(g.n, sizeof(float));
    g.volume = list_of(16 * g.n, sizeof(float));
    g.scratch = list_of(16 * g.n, sizeof(float));
    g.file = list_of(g.bytes, 1);
    return g;
}

static void free_grid(Grid *g) {
    free(g->occupied);
    free(g->active);
    free(g->light);
    free(g->light_scratch);
    free(g->volume);
    free(g->scratch);
    free(g->file);
}

/* of every list that a call may write */
static uint64_t grid_sum(const Grid *g) {
    uint64_t h = sum_on(sum_of(g->occupied, 8 * g->words), g->active, 8 * g->words);
    h = sum_on(sum_on(h, g->light, 4 * g->n), g->light_scratch, 4 * g->n);
    h = sum_on(sum_on(h, g->volume, 64 * g->n), g->scratch, 64 * g->n);
    return sum_on(sum_on(sum_on(h, g->file, g->bytes), distances, sizeof distances), places, sizeof places);
}

/* ---- what this program works out for itself */

static int marked(const uint64_t *mask, size_t i) { return (int)((mask[i / 64] >> (i % 64)) & 1); }

static int two_apart(size_t a, size_t b) { return a < b ? b - a <= 2 : a - b <= 2; }

static int within_two(GeaidnosaAxes a, size_t v, size_t u) {
    return two_apart(v % a.width, u % a.width) && two_apart(v / a.width % a.height, u / a.width % a.height) && two_apart(v / a.width / a.height, u / a.width / a.height);
}

/* the mean over the in-grid 3×3×3 of a voxel, of number k of `stride` a voxel, summed in z, y, x order */
static float mean_at(GeaidnosaAxes a, const float *list, size_t stride, size_t k, size_t v) {
    const size_t x = v % a.width, y = v / a.width % a.height, z = v / a.width / a.height;
    float sum = 0, count = 0;
    for (size_t c = z - (z > 0); c <= z + 1 && c < a.depth; c++)
        for (size_t b = y - (y > 0); b <= y + 1 && b < a.height; b++)
            for (size_t i = x - (x > 0); i <= x + 1 && i < a.width; i++) {
                sum = sum + list[(i + a.width * (b + a.height * c)) * stride + k];
                count = count + 1;
            }
    return sum / count;
}

static int same_mean(const Grid *g, const float *blurred, const float *before, size_t stride, int squared) {
    for (size_t v = 0; v < g->n; v++)
        for (size_t k = 0; k < stride; k++) {
            float m = mean_at(g->axes, before, stride, k, v);
            if (squared) m = m * m;
            if (memcmp(&m, &blurred[v * stride + k], sizeof m)) return 0;
        }
    return 1;
}

static float blend(float a, float b, float t) { return a * (1 - t) + b * t; }

/* number k of `stride` a cell at a position inside the grid */
static float between(const Grid *g, const float *list, size_t stride, size_t k, const float *q) {
    const size_t n[3] = {g->axes.width, g->axes.height, g->axes.depth};
    size_t cell[3], next[3];
    float t[3], plane[2];
    for (int a = 0; a < 3; a++) {
        cell[a] = (size_t)floorf(q[a]);
        next[a] = least(cell[a] + 1, n[a] - 1);
        t[a] = q[a] - floorf(q[a]);
    }
    for (int c = 0; c < 2; c++) {
        float row[2];
        for (int b = 0; b < 2; b++) {
            const size_t base = n[0] * ((b ? next[1] : cell[1]) + n[1] * (c ? next[2] : cell[2]));
            row[b] = blend(list[(base + cell[0]) * stride + k], list[(base + next[0]) * stride + k], t[0]);
        }
        plane[c] = blend(row[0], row[1], t[1]);
    }
    return blend(plane[0], plane[1], t[2]);
}

static void put(uint8_t *to, uint64_t number, int bytes) {
    for (int i = 0; i < bytes; i++) to[i] = (uint8_t)(number >> (8 * i));
}

/* a file of zeros with these axes, good in all but what an axis may be; and its length */
static uint8_t *file_of_zeros(GeaidnosaAxes a, size_t *length) {
    const size_t n = a.width * a.height * a.depth, lengths[5] = {4 * n, 64 * n, n, n, 24};
    uint8_t *file = list_of(96 + 70 * n, 1);
    const float corner[6] = {0, 0, 0, 1024, 1024, 1024};
    size_t place = 72;
    memcpy(file, "VGRD", 4);
    put(file + 4, a.width, 2);
    put(file + 6, a.height, 2);
    put(file + 8, a.depth, 2);
    put(file + 10, 5, 2);
    for (int i = 0; i < 5; i++) {
        put(file + 12 + 12 * i, (uint64_t)i + 1, 4);
        put(file + 16 + 12 * i, place, 4);
        put(file + 20 + 12 * i, lengths[i], 4);
        place += lengths[i];
    }
    memcpy(file + 72 + 70 * n, corner, sizeof corner);
    *length = 96 + 70 * n;
    return file;
}

/* ---- calls with a grid's lists */

static GeaidnosaBakeAnswer bake(const Grid *g, GeaidnosaAxes a, const uint64_t *mask, float *v, float *s, GeaidnosaProgress progress, uint64_t allowance) {
    return geaidnosa_bake(a, g->corners, g->points, 9 * T, uses, T, kinds, M, numbers, 7 * M, sun, ambient, sky, SKY, numbers, 0, mask, g->words, g->light, g->n, v, 16 * g->n, s,
                          16 * g->n, distances, T, places, T, progress, allowance);
}

static GeaidnosaSunned solid_sun(const Grid *g, GeaidnosaAxes a, float *l, float *s) {
    return geaidnosa_solid_sun(a, g->corners, g->points, 9 * T, uses, T, kinds, M, numbers, 7 * M, sun.direction, g->active, g->words, l, g->n, s, g->n);
}

static GeaidnosaBakeAnswer solid_bake(const Grid *g, GeaidnosaAxes a, float *v, float *s, GeaidnosaProgress progress, uint64_t allowance) {
    return geaidnosa_solid_bake(a, g->corners, g->points, 9 * T, uses, T, kinds, M, numbers, 7 * M, sun, ambient, sky, SKY, numbers, 0, g->active, g->words, g->light, g->n, v, 16 * g->n, s,
                                16 * g->n, progress, allowance);
}

/* Every call that takes axes, with a grid's lists and other axes: how many refuse 1, with zeros in the rest of the answer. */
static int refusing_one(const Grid *g, GeaidnosaAxes a) {
    const float position[3] = {0.5f, 0.5f, 0.5f};
    const GeaidnosaVec3 p = {0.5f, 0.5f, 0.5f};
    float answers[16] = {0};
    int count = 0;
    const GeaidnosaMarked m = geaidnosa_masks(a, g->corners, g->points, 9 * T, g->occupied, g->words, g->active, g->words);
    count += m.refusal == 1 && m.occupied == 0 && m.active == 0;
    const GeaidnosaSunned s = geaidnosa_sun(a, g->corners, g->points, 9 * T, uses, T, kinds, M, numbers, 7 * M, sun.direction, g->active, g->words, g->light, g->n, g->light_scratch,
                                            g->n, distances, T, places, T);
    count += s.refusal == 1 && s.rays == 0;
    const GeaidnosaBakeAnswer b = bake(g, a, g->active, g->volume, g->scratch, begin, UINT64_MAX);
    count += b.refusal == 1 && b.rays == 0 && b.progress.next == 0 && b.progress.rays == 0;
    const GeaidnosaSunned solid_s = solid_sun(g, a, g->light, g->light_scratch);
    count += solid_s.refusal == 1 && solid_s.rays == 0;
    const GeaidnosaBakeAnswer solid_b = solid_bake(g, a, g->volume, g->scratch, begin, UINT64_MAX);
    count += solid_b.refusal == 1 && solid_b.rays == 0 && solid_b.progress.next == 0 && solid_b.progress.rays == 0;
    count += geaidnosa_join(a, g->active, g->words, g->scratch, 16 * g->n, g->volume, 16 * g->n) == 1;
    count += geaidnosa_light_blur(a, g->light, g->n, g->light_scratch, g->n) == 1;
    count += geaidnosa_coefficient_blur(a, g->volume, 16 * g->n, g->scratch, 16 * g->n) == 1;
    const GeaidnosaLightAt l = geaidnosa_light_at(a, g->corners, g->light, g->n, p);
    count += l.refusal == 1 && l.light == 0;
    const GeaidnosaCoefficientsAt c = geaidnosa_coefficients_at(a, g->corners, g->volume, 16 * g->n, p);
    count += c.refusal == 1 && !memcmp(c.numbers, answers, sizeof answers);
    const GeaidnosaFirstRefusal f = geaidnosa_frame_lights(a, g->corners, g->light, g->n, position, 3, answers, 1);
    count += f.refusal == 1 && f.place == 0;
    const GeaidnosaFirstRefusal h = geaidnosa_frame_coefficients(a, g->corners, g->volume, 16 * g->n, position, 3, answers, 16);
    count += h.refusal == 1 && h.place == 0 && !memcmp(c.numbers, answers, sizeof answers);
    const GeaidnosaPartStart v = geaidnosa_voxel_part(a, g->volume, 16 * g->n, g->scratch, 16 * g->n, 0, 0);
    count += v.refusal == 1 && v.start == 0;
    count += geaidnosa_voxel_refusal(a, g->volume, 16 * g->n, g->scratch, 16 * g->n, 0, 0) == 1;
    const GeaidnosaNeeded needed = geaidnosa_volume_bytes(a);
    count += needed.refusal == 1 && needed.bytes == 0;
    count += geaidnosa_write_volume(a, g->corners, g->light, g->n, g->volume, 16 * g->n, g->occupied, g->words, g->active, g->words, g->file, g->bytes) == 1;
    return count;
}

/* ---- the checks */

static void check_refusals(const Grid *g, int axis) {
    const size_t bad[5] = {0, LIMIT + 1, 65536 + 1, ((size_t)1 << 32) + 1, SIZE_MAX};
    const uint64_t before = grid_sum(g);
    char line[160];
    for (int k = 0; k < 5; k++) {
        snprintf(line, sizeof line, "an axis of %zu, each of the %d calls refuses 1 and writes nothing", bad[k], CALLS);
        check(line, refusing_one(g, along(axis, bad[k])) == CALLS && grid_sum(g) == before);
    }
}

/* A file of a good axis is read; 0, one more than the limit and the most that two bytes say are refused, and no list is written. */
static void check_bad_files(Grid *g, int axis) {
    const size_t numbers_of[4] = {LIMIT, 0, LIMIT + 1, 65535};
    char line[160];
    for (int k = 0; k < 4; k++) {
        const int good_file = numbers_of[k] == LIMIT;
        const uint64_t before = grid_sum(g);
        size_t length;
        uint8_t *file = file_of_zeros(along(axis, numbers_of[k]), &length);
        const GeaidnosaHead head = geaidnosa_file_axes(file, length), read = geaidnosa_read_volume(file, length, g->light, g->n, g->volume, 16 * g->n, g->occupied, g->words, g->active, g->words);
        const GeaidnosaFigures figures = geaidnosa_file_figures(file, length);
        const uint32_t refusal = good_file ? 0 : 12;
        int good = head.refusal == refusal && read.refusal == refusal && figures.refusal == (length > 65536 ? 14 : refusal);
        if (good_file)
            good = good && head.axes.width * head.axes.height * head.axes.depth == LIMIT && figures.zeros == LIMIT;
        else
            good = good && grid_sum(g) == before && head.axes.width == 0 && read.axes.width == 0 && figures.width == 0;
        free(file);
        snprintf(line, sizeof line, good_file ? "a file of axis %zu is read" : "a file of axis %zu is refused, and no list written", numbers_of[k]);
        check(line, good);
    }
}

static void check_bake(Grid *g, uint64_t active) {
    float *v = list_of(16 * g->n, sizeof(float)), *s = list_of(16 * g->n, sizeof(float));
    uint64_t *share = list_of(g->words, sizeof(uint64_t));
    GeaidnosaBakeAnswer b = bake(g, g->axes, g->active, g->volume, g->scratch, begin, UINT64_MAX);
    const uint64_t rays = b.rays;
    check("bake: unbroken, to the end", b.refusal == 0 && b.progress.next == g->n && b.progress.rays == rays && 64 * active <= rays && rays <= 384 * active);
    int good = 1;
    for (size_t i = 0; i < g->n; i++) good = good && (marked(g->active, i) || !memcmp(&g->scratch[16 * i], &ambient.c0, sizeof ambient.c0));
    check("bake: inactive voxels hold ambient before the mean", good);
    check("bake: the volume is the mean of scratch", same_mean(g, g->volume, g->scratch, 16, 0));
    GeaidnosaProgress progress = begin;
    uint64_t calls = 0;
    while (progress.next < g->n && calls <= active) {
        b = bake(g, g->axes, g->active, v, s, progress, 400);
        if (b.refusal) break;
        progress = b.progress;
        calls++;
    }
    check("bake: an allowance of 400, the same volume, scratch and rays",
          calls > 1 && progress.next == g->n && progress.rays == rays && !memcmp(v, g->volume, 64 * g->n) && !memcmp(s, g->scratch, 64 * g->n));
    /* one call by the one, and on from there by the other */
    memset(v, 0xff, 64 * g->n);
    memset(s, 0xff, 64 * g->n);
    b = bake(g, g->axes, g->active, v, s, begin, 400);
    b = solid_bake(g, g->axes, v, s, b.progress, UINT64_MAX);
    check("solid_bake: begun by the other call, the same volume, scratch and rays",
          b.refusal == 0 && b.progress.next == g->n && b.progress.rays == rays && !memcmp(v, g->volume, 64 * g->n) && !memcmp(s, g->scratch, 64 * g->n));
    const GeaidnosaProgress past = {g->n + 1, rays};
    b = bake(g, g->axes, g->active, v, s, past, 2000);
    check("bake: next above the count, refuses 9", b.refusal == 9 && b.progress.next == g->n + 1);
    /* two shares, the active voxels dealt out in turn; the first one's scratch is joined onto */
    float *joined = list_of(16 * g->n, sizeof(float));
    uint64_t total = 0;
    good = 1;
    for (int which = 0; which < 2; which++) {
        size_t turn = 0;
        memset(share, 0, 8 * g->words);
        for (size_t i = 0; i < g->n; i++)
            if (marked(g->active, i) && (int)(turn++ % 2) == which) share[i / 64] |= (uint64_t)1 << (i % 64);
        b = bake(g, g->axes, share, v, s, begin, UINT64_MAX);
        total += b.rays;
        good = good && b.refusal == 0;
        if (which == 0) memcpy(joined, s, 64 * g->n);
        if (which == 1) good = good && geaidnosa_join(g->axes, share, g->words, s, 16 * g->n, joined, 16 * g->n) == 0;
    }
    check("join: two shares, the unbroken bake's scratch and rays", good && total == rays && !memcmp(joined, g->scratch, 64 * g->n));
    check("coefficient_blur: the mean of it is the volume", geaidnosa_coefficient_blur(g->axes, joined, 16 * g->n, s, 16 * g->n) == 0 && !memcmp(joined, g->volume, 64 * g->n));
    printf("   rays %llu in %llu calls, volume sum %016llx\n", (unsigned long long)rays, (unsigned long long)calls, (unsigned long long)sum_of(g->volume, 64 * g->n));
    free(v);
    free(s);
    free(share);
    free(joined);
}

static void check_lookups(const Grid *g) {
    /* beside the triangles and within the last cell, where the next one is the same */
    const float w = (float)g->axes.width, h = (float)g->axes.height, d = (float)g->axes.depth;
    const float positions[9] = {w * 0.31f, h * 0.54f, d * 0.78f, w - 0.7f, h - 0.2f, d - 0.6f, larger(w - 1.4f, 0.3f), larger(h - 1.3f, 0.1f), larger(d - 1.8f, 0.6f)};
    float lights[3], numbers_at[48];
    int single = 1, frame = geaidnosa_frame_lights(g->axes, g->corners, g->light, g->n, positions, 9, lights, 3).refusal == 0 &&
                            geaidnosa_frame_coefficients(g->axes, g->corners, g->volume, 16 * g->n, positions, 9, numbers_at, 48).refusal == 0;
    for (int i = 0; i < 3; i++) {
        const float *q = &positions[3 * i];
        const GeaidnosaVec3 p = {q[0], q[1], q[2]};
        const GeaidnosaLightAt l = geaidnosa_light_at(g->axes, g->corners, g->light, g->n, p);
        const GeaidnosaCoefficientsAt c = geaidnosa_coefficients_at(g->axes, g->corners, g->volume, 16 * g->n, p);
        float expected = between(g, g->light, 1, 0, q);
        single = single && l.refusal == 0 && !memcmp(&l.light, &expected, sizeof expected) && c.refusal == 0;
        for (size_t k = 0; k < 16; k++) {
            expected = between(g, g->volume, 16, k, q);
            single = single && !memcmp(&c.numbers[k], &expected, sizeof expected);
        }
        frame = frame && !memcmp(&lights[i], &l.light, sizeof l.light) && !memcmp(&numbers_at[16 * i], c.numbers, sizeof c.numbers);
    }
    check("light_at and coefficients_at: between eight cells", single);
    check("frame_lights and frame_coefficients: the same numbers", frame);
    GeaidnosaPartStart part = geaidnosa_voxel_part(g->axes, g->volume, 16 * g->n, g->scratch, 16 * g->n, g->n - 1, 0);
    const GeaidnosaPartStart none = geaidnosa_voxel_part(g->axes, g->volume, 16 * g->n, g->scratch, 16 * g->n, g->n, 0);
    check("voxel_part: the last voxel's start, and one further refuses 11", part.refusal == 0 && part.start == 16 * (g->n - 1) && none.refusal == 11 && none.start == 0);
}

static void check_file(const Grid *g, uint64_t active) {
    const GeaidnosaNeeded needed = geaidnosa_volume_bytes(g->axes);
    check("volume_bytes: 96 + 70·N", needed.refusal == 0 && needed.bytes == g->bytes);
    size_t length;
    uint8_t *zeros = file_of_zeros(g->axes, &length);
    int good = geaidnosa_write_volume(g->axes, g->corners, g->light, g->n, g->volume, 16 * g->n, g->occupied, g->words, g->active, g->words, g->file, g->bytes) == 0;
    check("write_volume: head and contents as this program writes them", good && length == g->bytes && !memcmp(g->file, zeros, 72));
    free(zeros);
    Grid r = grid_of(g->axes);
    memset(r.light, 0xff, 4 * r.n);
    memset(r.volume, 0xff, 64 * r.n);
    memset(r.occupied, 0xff, 8 * r.words);
    memset(r.active, 0xff, 8 * r.words);
    const GeaidnosaHead head = geaidnosa_file_axes(g->file, g->bytes);
    check("file_axes: as written", head.refusal == 0 && !memcmp(&head.axes, &g->axes, sizeof g->axes) && !memcmp(&head.corners, &g->corners, sizeof g->corners));
    const uint64_t before = grid_sum(&r);
    good = geaidnosa_read_volume(g->file, g->bytes, r.light, r.n, r.volume, 16 * r.n - 1, r.occupied, r.words, r.active, r.words).refusal == 3;
    good = good && geaidnosa_read_volume(g->file, g->bytes - 1, r.light, r.n, r.volume, 16 * r.n, r.occupied, r.words, r.active, r.words).refusal == 12;
    check("read_volume: a volume of 16·N−1 refuses 3, a byte less 12, and nothing is written", good && grid_sum(&r) == before);
    const GeaidnosaHead read = geaidnosa_read_volume(g->file, g->bytes, r.light, r.n, r.volume, 16 * r.n, r.occupied, r.words, r.active, r.words);
    check("read_volume: every bit returns", read.refusal == 0 && !memcmp(r.light, g->light, 4 * r.n) && !memcmp(r.volume, g->volume, 64 * r.n) &&
                                                 !memcmp(r.occupied, g->occupied, 8 * r.words) && !memcmp(r.active, g->active, 8 * r.words));
    good = geaidnosa_write_volume(read.axes, read.corners, r.light, r.n, r.volume, 16 * r.n, r.occupied, r.words, r.active, r.words, r.file, r.bytes) == 0;
    check("write_volume: what was read gives the same bytes", good && !memcmp(r.file, g->file, g->bytes));
    const GeaidnosaFigures f = geaidnosa_file_figures(g->file, g->bytes);
    if (g->bytes > 65536)
        check("file_figures: more than 65,536 bytes, refuses 14", f.refusal == 14 && f.width == 0);
    else
        check("file_figures: axes and counts", f.refusal == 0 && f.width == g->axes.width && f.height == g->axes.height && f.depth == g->axes.depth && f.occupied == 2 && f.active == active);
    printf("   %zu bytes, file sum %016llx\n", g->bytes, (unsigned long long)sum_of(g->file, g->bytes));
    free_grid(&r);
}

static void check_grid(Grid *g) {
    const GeaidnosaMarked m = geaidnosa_masks(g->axes, g->corners, g->points, 9 * T, g->occupied, g->words, g->active, g->words);
    uint64_t active = 0;
    int good = 1;
    for (size_t i = 0; i < g->n; i++) {
        const int near = within_two(g->axes, i, g->near) || within_two(g->axes, i, g->n - 1);
        active += (uint64_t)near;
        good = good && marked(g->occupied, i) == (i == g->near || i == g->n - 1) && marked(g->active, i) == near;
    }
    for (size_t i = g->n; i < 64 * g->words; i++) good = good && !marked(g->occupied, i) && !marked(g->active, i);
    check("masks: the two voxels, and those within 2 of them", good && m.refusal == 0 && m.occupied == 2 && m.active == active);
    const GeaidnosaSunned s = geaidnosa_sun(g->axes, g->corners, g->points, 9 * T, uses, T, kinds, M, numbers, 7 * M, sun.direction, g->active, g->words, g->light, g->n,
                                            g->light_scratch, g->n, distances, T, places, T);
    good = s.refusal == 0 && s.rays == active;
    for (size_t i = 0; i < g->n; i++) good = good && (marked(g->active, i) || g->light_scratch[i] == 1);
    check("sun: a ray for each active voxel, 1.0 at the others", good);
    check("sun: the light is the squared mean of scratch", same_mean(g, g->light, g->light_scratch, 1, 1));
    float *light = list_of(g->n, sizeof(float)), *scratch = list_of(g->n, sizeof(float));
    const GeaidnosaSunned solid_s = solid_sun(g, g->axes, light, scratch);
    check("solid_sun: the same rays, light and scratch",
          solid_s.refusal == 0 && solid_s.rays == active && !memcmp(light, g->light, 4 * g->n) && !memcmp(scratch, g->light_scratch, 4 * g->n));
    for (size_t i = 0; i < g->n; i++) light[i] = (float)(i % 1009);
    good = geaidnosa_light_blur(g->axes, light, g->n, scratch, g->n) == 0 && same_mean(g, light, scratch, 1, 1);
    for (size_t i = 0; i < g->n; i++) good = good && scratch[i] == (float)(i % 1009);
    check("light_blur: the squared mean of other figures, which scratch keeps", good);
    free(light);
    free(scratch);
    printf("   %zu voxels, %llu active, light sum %016llx\n", g->n, (unsigned long long)active, (unsigned long long)sum_of(g->light, 4 * g->n));
    check_bake(g, active);
    check_lookups(g);
    check_file(g, active);
}

static void check_axes(GeaidnosaAxes a, int axis) {
    Grid g = grid_of(a);
    snprintf(name, sizeof name, "%zu×%zu×%zu", a.width, a.height, a.depth);
    check_grid(&g);
    if (axis >= 0) {
        check_refusals(&g, axis);
        check_bad_files(&g, axis);
    }
    free_grid(&g);
}

int main(void) {
    for (int i = 0; i < SKY; i++) sky[i] = 0.5f + (float)(i % 7) * 0.125f;
    for (int axis = 0; axis < 3; axis++) check_axes(along(axis, LIMIT), axis);
    check_axes(axes_of(LIMIT, LIMIT, SLAB), -1);
    printf("%d failed\n", failures);
    return failures != 0;
}
