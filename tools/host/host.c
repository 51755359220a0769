/* A host in C: a small hall from masks to file through include/geaidnosa.h. One line for each check; what a call answers is held to what this program
 * works out for itself, bit for bit, or to what another call answers. Status 1 if any check fails. tools/host/run builds and runs it. */
#include <math.h>
#include <stdio.h>
#include <stdlib.h>
#include <string.h>

#include "geaidnosa.h"

enum { W = 5, H = 4, D = 12, N = W * H * D, WORDS = (N + 63) / 64, T = 14, M = 4, SKY = 1728, BYTES = 96 + 70 * N };

static int failures = 0;

static void check(const char *what, int good) {
    printf("%s %s\n", good ? "ok" : "DIFFERS", what);
    failures += !good;
}

/* FNV-1a, begun or gone on with: a change of any bit of a list changes what is printed. */
static uint64_t sum_on(uint64_t h, const void *list, size_t bytes) {
    const unsigned char *p = list;
    for (size_t i = 0; i < bytes; i++) h = (h ^ p[i]) * 0x100000001b3u;
    return h;
}

static uint64_t sum_of(const void *list, size_t bytes) { return sum_on(0xcbf29ce484222325u, list, bytes); }

/* ---- the hall */

static const GeaidnosaAxes axes = {W, H, D};
static const GeaidnosaCorners corners = {{0, 0, 0}, {W, H, D}};
static const GeaidnosaLight light = {{0.1f, 0.05f, 0.9f}, {3, 2.5f, 2}};
static const GeaidnosaAmbient ambient = {{0.2f, 0.25f, 0.3f}, {0.01f, 0.02f, 0.03f}, {0.05f, 0.05f, 0.05f}, {-0.01f, 0, 0.01f}};
static float points[9 * T], sky[SKY];
static uint32_t uses[T];
static uint8_t kinds[M] = {0, 1, 0, 0};
static float numbers[7 * M] = {
    0.8f, 0.7f, 0.6f, 0, 0, 0, 0,        /* white wall */
    0.9f, 0.9f, 0.9f, 0, 0, 0, 0.5f,     /* glass */
    0.1f, 0.1f, 0.1f, 4, 3, 1, 0,        /* lamp */
    0, 0, 0, 0, 0, 0, 0,                 /* black */
};
static const float lamps[54] = {2, 2, 3, 6, 5, 4}; /* a lamp in the hall, and eight black ones at a corner; as many numbers are lent as a check asks for */
static size_t lamp_numbers = 0;
static uint64_t occupied[WORDS], active[WORDS];
static size_t occupied_words = WORDS, active_words = WORDS; /* as many words are lent as a check asks for */
static float lights[N], lights_scratch[N], volume[16 * N], scratch[16 * N], distances[T];
static size_t places[T];
static uint8_t file[BYTES];

static size_t triangles = 0;

static void quad(uint32_t material, GeaidnosaVec3 a, GeaidnosaVec3 b, GeaidnosaVec3 c, GeaidnosaVec3 d) {
    const GeaidnosaVec3 p[6] = {a, b, c, a, c, d};
    for (int i = 0; i < 6; i++) memcpy(&points[9 * triangles + 3 * i], &p[i], sizeof p[i]);
    uses[triangles] = uses[triangles + 1] = material;
    triangles += 2;
}

static GeaidnosaVec3 at(float x, float y, float z) {
    GeaidnosaVec3 v = {x, y, z};
    return v;
}

static void build(void) {
    quad(0, at(0.1f, 0.1f, 0.2f), at(4.9f, 0.1f, 0.2f), at(4.9f, 3.9f, 0.2f), at(0.1f, 3.9f, 0.2f));     /* floor */
    quad(1, at(0.1f, 0.1f, 11.7f), at(2.5f, 0.1f, 11.7f), at(2.5f, 3.9f, 11.7f), at(0.1f, 3.9f, 11.7f)); /* glass roof */
    quad(0, at(2.5f, 0.1f, 11.7f), at(4.9f, 0.1f, 11.7f), at(4.9f, 3.9f, 11.7f), at(2.5f, 3.9f, 11.7f)); /* solid roof */
    quad(0, at(0.2f, 0.1f, 0.2f), at(0.2f, 3.9f, 0.2f), at(0.2f, 3.9f, 4.5f), at(0.2f, 0.1f, 4.5f));
    quad(3, at(4.8f, 0.1f, 0.2f), at(4.8f, 3.9f, 0.2f), at(4.8f, 3.9f, 4.5f), at(4.8f, 0.1f, 4.5f));
    quad(2, at(2.4f, 1.1f, 4.2f), at(3.1f, 1.1f, 4.2f), at(3.1f, 1.9f, 4.2f), at(2.4f, 1.9f, 4.2f)); /* lamp */
    quad(0, at(1, 3.8f, 0.3f), at(3, 3.8f, 0.3f), at(3, 3.8f, 4.5f), at(1, 3.8f, 4.5f));
    for (int i = 0; i < SKY; i++) sky[i] = 0.5f + (float)(i % 7) * 0.125f;
}

/* ---- what this program works out for itself */

static int marked(const uint64_t *mask, int i) { return (int)((mask[i / 64] >> (i % 64)) & 1); }

static int near_occupied(int x, int y, int z) {
    for (int k = 0; k < D; k++)
        for (int j = 0; j < H; j++)
            for (int i = 0; i < W; i++)
                if (abs(i - x) <= 2 && abs(j - y) <= 2 && abs(k - z) <= 2 && marked(occupied, i + W * (j + H * k))) return 1;
    return 0;
}

/* the mean over the in-grid 3×3×3 of voxel (x,y,z), of number k of `stride` a voxel, summed in z, y, x order */
static float mean_at(const float *list, int stride, int k, int x, int y, int z) {
    float sum = 0, count = 0;
    for (int c = z - 1; c <= z + 1; c++)
        for (int b = y - 1; b <= y + 1; b++)
            for (int a = x - 1; a <= x + 1; a++)
                if (0 <= a && a < W && 0 <= b && b < H && 0 <= c && c < D) {
                    sum = sum + list[(a + W * (b + H * c)) * stride + k];
                    count = count + 1;
                }
    return sum / count;
}

static int same_mean(const float *blurred, const float *before, int stride, int squared) {
    for (int z = 0; z < D; z++)
        for (int y = 0; y < H; y++)
            for (int x = 0; x < W; x++)
                for (int k = 0; k < stride; k++) {
                    float m = mean_at(before, stride, k, x, y, z);
                    if (squared) m = m * m;
                    if (memcmp(&m, &blurred[(x + W * (y + H * z)) * stride + k], sizeof m)) return 0;
                }
    return 1;
}

static float blend(float a, float b, float t) { return a * (1 - t) + b * t; }

/* number k of `stride` a cell at a position inside the grid, whose edges are 1 */
static float between(const float *list, int stride, int k, GeaidnosaVec3 p) {
    float q[3] = {p.x, p.y, p.z}, t[3], plane[2];
    int cell[3], next[3], n[3] = {W, H, D};
    for (int a = 0; a < 3; a++) {
        cell[a] = (int)floorf(q[a]);
        next[a] = cell[a] + 1 < n[a] ? cell[a] + 1 : n[a] - 1;
        t[a] = q[a] - floorf(q[a]);
    }
    for (int c = 0; c < 2; c++) {
        float row[2];
        for (int b = 0; b < 2; b++) {
            int base = W * ((b ? next[1] : cell[1]) + H * (c ? next[2] : cell[2]));
            row[b] = blend(list[(base + cell[0]) * stride + k], list[(base + next[0]) * stride + k], t[0]);
        }
        plane[c] = blend(row[0], row[1], t[1]);
    }
    return blend(plane[0], plane[1], t[2]);
}

/* ---- calls with the hall's arguments */

static GeaidnosaSunned sun(GeaidnosaVec3 direction, const uint64_t *mask) {
    return geaidnosa_sun(axes, corners, points, 9 * T, uses, T, kinds, M, numbers, 7 * M, direction, mask, active_words, lights, N, lights_scratch, N, distances, T, places, T);
}

static const GeaidnosaProgress begin = {0, 0};

static GeaidnosaProgress from(size_t next, uint64_t rays) {
    GeaidnosaProgress p = {next, rays};
    return p;
}

static int is_progress(GeaidnosaProgress p, size_t next, uint64_t rays) { return p.next == next && p.rays == rays; }

static GeaidnosaBakeAnswer bake(float *v, float *s, GeaidnosaProgress progress, uint64_t allowance) {
    return geaidnosa_bake(axes, corners, points, 9 * T, uses, T, kinds, M, numbers, 7 * M, light, ambient, sky, SKY, lamps, lamp_numbers, active, active_words, lights, N, v, 16 * N, s, 16 * N,
                          distances, T, places, T, progress, allowance);
}

static GeaidnosaTransmitted passes(GeaidnosaRay ray) {
    return geaidnosa_transmittance(points, 9 * T, uses, T, kinds, M, numbers, 7 * M, ray, distances, T, places, T);
}

static int is_hit(GeaidnosaRayHit h, size_t place, float t, float u, float v, uint32_t front) {
    return h.refusal == 0 && h.hit == 1 && h.place == place && h.t == t && h.u == u && h.v == v && h.front == front;
}

static int no_hit(GeaidnosaRayHit h, uint32_t refusal) {
    return h.refusal == refusal && h.hit == 0 && h.place == 0 && h.t == 0 && h.u == 0 && h.v == 0 && h.front == 0;
}

static uint32_t sun_refusal(void) { return sun(light.direction, active).refusal; }

static uint32_t bake_refusal(void) { return bake(volume, scratch, begin, UINT64_MAX).refusal; }

static uint32_t join_refusal(void) { return geaidnosa_join(axes, active, active_words, scratch, 16 * N, volume, 16 * N); }

static uint32_t write_refusal(void) { return geaidnosa_write_volume(axes, corners, lights, N, volume, 16 * N, occupied, occupied_words, active, active_words, file, BYTES); }

/* of every list that those four write */
static uint64_t written_sum(void) {
    uint64_t h = sum_of(lights, sizeof lights);
    h = sum_on(sum_on(h, lights_scratch, sizeof lights_scratch), volume, sizeof volume);
    h = sum_on(sum_on(h, scratch, sizeof scratch), file, sizeof file);
    return sum_on(sum_on(h, distances, sizeof distances), places, sizeof places);
}

/* with each bit past the last voxel set in turn the call refuses 13 and writes nothing */
static int refuses_unused(uint64_t *mask, uint32_t (*call)(void)) {
    uint64_t before = written_sum();
    int good = 1;
    for (int i = N; i < 64 * WORDS; i++) {
        mask[i / 64] ^= (uint64_t)1 << (i % 64);
        good = good && call() == 13 && written_sum() == before;
        mask[i / 64] ^= (uint64_t)1 << (i % 64);
    }
    return good;
}

/* with a word of the mask too few and one too many the call refuses 3 and writes nothing */
static int refuses_word_counts(size_t *words, uint32_t (*call)(void)) {
    uint64_t before = written_sum();
    *words = WORDS - 1;
    int good = call() == 3;
    *words = WORDS + 1;
    good = good && call() == 3;
    *words = WORDS;
    return good && written_sum() == before;
}

/* ---- the checks */

static void check_rays(void) {
    const GeaidnosaTriangle q = {{0, 0, 0}, {1, 0, 0}, {0, 1, 0}};
    const float two[18] = {0, 0, 0, 1, 0, 0, 0, 1, 0, 0, 0, 0, 1, 0, 0, 0, 1, 0};
    const uint32_t both[2] = {0, 1};
    GeaidnosaRay down = {{0.25f, 0.25f, 1}, {0, 0, -1}, 0, INFINITY};
    check("meet: triangle Q at distance 1, u and v .25", is_hit(geaidnosa_meet(down, q), 0, 1, 0.25f, 0.25f, 1));
    check("nearest: of two equal distances the highest place", is_hit(geaidnosa_nearest(two, 18, both, 2, kinds, M, numbers, 7 * M, down), 1, 1, 0.25f, 0.25f, 1));
    down.origin.x = 0.5f;
    down.origin.y = 0.75f;
    check("meet: (.5,.75,1) is a miss, all zeros", no_hit(geaidnosa_meet(down, q), 0));
    check("nearest: no triangles, a miss, all zeros", no_hit(geaidnosa_nearest(two, 0, both, 0, kinds, M, numbers, 7 * M, down), 0));
    down.direction.z = 3;
    check("meet: refuses 8, all zeros", no_hit(geaidnosa_meet(down, q), 8));
    check("nearest: refuses 8, all zeros", no_hit(geaidnosa_nearest(two, 18, both, 2, kinds, M, numbers, 7 * M, down), 8));
    check("nearest: 17 numbers for two triangles, refuses 3", no_hit(geaidnosa_nearest(two, 17, both, 2, kinds, M, numbers, 7 * M, down), 3));
    GeaidnosaRay up = {{1, 1, 11.5f}, {0, 0, 1}, 0, 1};
    GeaidnosaTransmitted half = passes(up);
    check("transmittance: one sheet of glass, .5", half.refusal == 0 && half.transmittance == 0.5f);
    up.origin.x = 3;
    check("transmittance: the solid roof, 0", passes(up).refusal == 0 && passes(up).transmittance == 0);
    up.direction.z = -1;
    check("transmittance: nothing within 1 downwards, 1.0", passes(up).transmittance == 1);
    check("transmittance: hit scratch shorter than the triangles, refuses 3",
          geaidnosa_transmittance(points, 9 * T, uses, T, kinds, M, numbers, 7 * M, up, distances, T - 1, places, T).refusal == 3);
}

/* Q twice, its corners counter-clockwise as seen from above, then a triangle that a check places; each of its own material */
static float sheets[27] = {0, 0, 0, 1, 0, 0, 0, 1, 0, 0, 0, 0, 1, 0, 0, 0, 1, 0};
static const uint32_t sheet_uses[3] = {0, 1, 2};
static float sheet_numbers[21] = {0.5f, 0.5f, 0.5f, 0, 0, 0, 0.5f, 0.5f, 0.5f, 0.5f, 0, 0, 0, 0.5f, 0.5f, 0.5f, 0.5f, 0, 0, 0, 0.5f};

/* the first `count` of them, of these kinds */
static GeaidnosaRayHit nearest_sheet(size_t count, const uint8_t *of_kinds, GeaidnosaRay ray) {
    return geaidnosa_nearest(sheets, 9 * count, sheet_uses, count, of_kinds, 3, sheet_numbers, 21, ray);
}

static int passes_sheets(size_t count, const uint8_t *of_kinds, GeaidnosaRay ray, float expected) {
    GeaidnosaTransmitted t = geaidnosa_transmittance(sheets, 9 * count, sheet_uses, count, of_kinds, 3, sheet_numbers, 21, ray, distances, T, places, T);
    return t.refusal == 0 && t.transmittance == expected;
}

static void check_sides(void) {
    const GeaidnosaTriangle q = {{0, 0, 0}, {1, 0, 0}, {0, 1, 0}}, swapped = {{0, 0, 0}, {0, 1, 0}, {1, 0, 0}};
    const GeaidnosaRay down = {{0.25f, 0.25f, 1}, {0, 0, -1}, 0, INFINITY}, up = {{0.25f, 0.25f, -1}, {0, 0, 1}, 0, INFINITY};
    const uint8_t panel[3] = {2, 2, 2}, wall_then_panel[3] = {0, 2, 2}, glass_then_panel[3] = {1, 2, 2}, panel_then_glass[3] = {2, 1, 0}, other[3] = {0, 0, 3};
    check("meet: the front from above and the back from below, at the same distance, u and v",
          is_hit(geaidnosa_meet(down, q), 0, 1, 0.25f, 0.25f, 1) && is_hit(geaidnosa_meet(up, q), 0, 1, 0.25f, 0.25f, 0));
    check("meet: two corners swapped, the sides are", geaidnosa_meet(down, swapped).front == 0 && geaidnosa_meet(up, swapped).front == 1);
    check("nearest: a panel from the front, and from behind a miss, all zeros",
          is_hit(nearest_sheet(1, panel, down), 0, 1, 0.25f, 0.25f, 1) && no_hit(nearest_sheet(1, panel, up), 0));
    check("nearest: a wall and a panel at one distance: from the front the highest place, from behind the wall",
          is_hit(nearest_sheet(2, wall_then_panel, down), 1, 1, 0.25f, 0.25f, 1) && is_hit(nearest_sheet(2, wall_then_panel, up), 0, 1, 0.25f, 0.25f, 0));
    check("transmittance: a panel, 0 from the front and 1.0 from behind", passes_sheets(1, panel, down, 0) && passes_sheets(1, panel, up, 1));
    check("transmittance: glass and a panel, 0 from the front and .5 from behind, in either order",
          passes_sheets(2, glass_then_panel, down, 0) && passes_sheets(2, glass_then_panel, up, 0.5f) && passes_sheets(2, panel_then_glass, down, 0) &&
              passes_sheets(2, panel_then_glass, up, 0.5f));
    const float back[9] = {0, 0, 0.5f, 0, 1, 0.5f, 1, 0, 0.5f};
    memcpy(&sheets[18], back, sizeof back);
    check("nearest: two panels face to face: from above the lower one, from below the upper one",
          is_hit(nearest_sheet(3, panel, down), 1, 1, 0.25f, 0.25f, 1) && is_hit(nearest_sheet(3, panel, up), 2, 1.5f, 0.25f, 0.25f, 1));
    check("transmittance: two panels face to face, 0 from both sides", passes_sheets(3, panel, down, 0) && passes_sheets(3, panel, up, 0));
    check("nearest and transmittance: a kind 3 in the list, refuses 6, all zeros",
          no_hit(nearest_sheet(1, other, down), 6) &&
              geaidnosa_transmittance(sheets, 9, sheet_uses, 1, other, 3, sheet_numbers, 21, down, distances, T, places, T).refusal == 6);
    int good = 1;
    const float transmissions[5] = {0, 1, -0.5f, 1.5f, NAN};
    for (int i = 0; i < 5; i++) {
        sheet_numbers[6] = transmissions[i];
        good = good && (i < 2 ? passes_sheets(1, panel, down, 0) && passes_sheets(1, panel, up, 1) : no_hit(nearest_sheet(1, panel, up), 6));
    }
    check("a panel's transmission: never read, and outside 0..1 refuses 6", good);
    sheet_numbers[6] = 0.5f;
}

/* What one voxel over a floor gets of sun, sky and a lamp: its sun, sixteen numbers and rays. The first `count` of floor and a large sheet between are there. */
typedef struct Under {
    float sun, numbers[16];
    uint64_t rays;
} Under;

static int under_sheet(Under *u, size_t count, uint8_t kind, int front_up) {
    const GeaidnosaAxes one = {1, 1, 1};
    const GeaidnosaCorners box = {{0, 0, 0}, {1, 1, 1}};
    const GeaidnosaLight above = {{0, 0, 1}, {3, 2, 1}};
    const float left[3] = {-60, -60, 10}, right[3] = {60, -60, 10}, far[3] = {0, 60, 10}, lamp[6] = {0.5f, 0.5f, 12, 90, 80, 70};
    const uint8_t two_kinds[2] = {0, kind};
    const uint64_t mask = 1;
    float p[18] = {-20, -20, -1, 20, -20, -1, 0, 20, -1}, kept, before[16];
    memset(u, 0, sizeof *u);
    memcpy(p + 9, left, sizeof left);
    memcpy(p + 12, front_up ? right : far, sizeof left);
    memcpy(p + 15, front_up ? far : right, sizeof left);
    GeaidnosaSunned s = geaidnosa_sun(one, box, p, 9 * count, sheet_uses, count, two_kinds, 2, sheet_numbers, 14, above.direction, &mask, 1, &u->sun, 1, &kept, 1, distances, T, places, T);
    GeaidnosaBakeAnswer b = geaidnosa_bake(one, box, p, 9 * count, sheet_uses, count, two_kinds, 2, sheet_numbers, 14, above, ambient, sky, SKY, lamp, 6, &mask, 1, &u->sun, 1, u->numbers, 16,
                                           before, 16, distances, T, places, T, begin, UINT64_MAX);
    u->rays = b.rays;
    return s.refusal == 0 && b.refusal == 0 && is_progress(b.progress, 1, b.rays);
}

static int same_under(const Under *a, const Under *b) {
    return !memcmp(&a->sun, &b->sun, sizeof a->sun) && !memcmp(a->numbers, b->numbers, sizeof a->numbers) && a->rays == b->rays;
}

static void check_panels(void) {
    Under open, closed, from_behind, from_front, wrong;
    int good = under_sheet(&open, 1, 0, 1) && under_sheet(&closed, 2, 0, 0) && under_sheet(&from_behind, 2, 2, 1) && under_sheet(&from_front, 2, 2, 0);
    check("sun and bake: under a panel's back the same bits and rays as without it", good && open.sun == 1 && same_under(&from_behind, &open));
    check("sun and bake: under a panel's front the same as under a wall", good && closed.sun == 0 && same_under(&from_front, &closed) && memcmp(open.numbers, closed.numbers, sizeof open.numbers));
    check("sun and bake: a kind 3, refuses 6", !under_sheet(&wrong, 2, 3, 0) && wrong.sun == 0 && wrong.rays == 0);
}

static void check_masks(void) {
    memset(occupied, 0xf7, sizeof occupied);
    memset(active, 0xf9, sizeof active);
    uint64_t o_before = sum_of(occupied, sizeof occupied), a_before = sum_of(active, sizeof active);
    GeaidnosaAxes flat = {W, 0, D};
    GeaidnosaMarked m = geaidnosa_masks(flat, corners, points, 9 * T, occupied, WORDS, active, WORDS);
    int kept = m.refusal == 1 && m.occupied == 0 && m.active == 0;
    check("masks: an axis of 0, refuses 1 and writes nothing", kept && sum_of(occupied, sizeof occupied) == o_before && sum_of(active, sizeof active) == a_before);
    m = geaidnosa_masks(axes, corners, points, 9 * T - 1, occupied, WORDS, active, WORDS);
    check("masks: 9·T−1 numbers, refuses 3", m.refusal == 3);
    kept = 1;
    for (int by = -1; by <= 1; by += 2) {
        kept = kept && geaidnosa_masks(axes, corners, points, 9 * T, occupied, WORDS + by, active, WORDS).refusal == 3;
        kept = kept && geaidnosa_masks(axes, corners, points, 9 * T, occupied, WORDS, active, WORDS + by).refusal == 3;
    }
    check("masks: a word too few and one too many, refuses 3 and writes nothing",
          kept && sum_of(occupied, sizeof occupied) == o_before && sum_of(active, sizeof active) == a_before);
    m = geaidnosa_masks(axes, corners, points, 9 * T, occupied, WORDS, active, WORDS);
    uint64_t o = 0, a = 0;
    int good = m.refusal == 0, near = 1;
    uint8_t entries[N];
    for (int i = 0; i < N; i++) {
        entries[i] = (uint8_t)marked(occupied, i);
        o += entries[i];
        a += marked(active, i);
        near = near && marked(active, i) == near_occupied(i % W, i / W % H, i / (W * H));
    }
    for (int i = N; i < 64 * WORDS; i++) good = good && !marked(occupied, i) && !marked(active, i);
    check("masks: unused bits 0, both counts", good && m.occupied == o && m.active == a && 0 < o && o < a && a < N);
    check("masks: active within 2 of an occupied voxel on every axis", near);
    printf("   occupied %llu of %d, active %llu, sum %016llx\n", (unsigned long long)o, N, (unsigned long long)a, (unsigned long long)sum_of(entries, N));
}

static void check_sun(uint64_t actives) {
    float before[N], after[N], copy[N];
    memset(lights, 0xff, sizeof lights);
    memset(lights_scratch, 0xff, sizeof lights_scratch);
    GeaidnosaSunned s = sun(at(0, 0, 0), active);
    float nans[N];
    memset(nans, 0xff, sizeof nans);
    check("sun: no direction, refuses 7 and writes nothing",
          s.refusal == 7 && s.rays == 0 && !memcmp(lights, nans, sizeof nans) && !memcmp(lights_scratch, nans, sizeof nans));
    const uint64_t none[WORDS] = {0};
    s = sun(light.direction, none);
    int ones = s.refusal == 0 && s.rays == 0 && !memcmp(lights_scratch, nans, sizeof nans);
    for (int i = 0; i < N; i++) ones = ones && lights[i] == 1;
    check("sun: no voxel active, all 1.0, scratch as it was", ones);
    check("sun: an unused bit of the mask set, each in turn, refuses 13 and writes nothing", refuses_unused(active, sun_refusal));
    check("sun: a word too few and one too many, refuses 3 and writes nothing", refuses_word_counts(&active_words, sun_refusal));
    s = sun(light.direction, active);
    check("sun: a ray for each active voxel", s.refusal == 0 && s.rays == actives);
    check("sun: the light is the squared mean of scratch", same_mean(lights, lights_scratch, 1, 1));
    int dark = 0, glass = 0, open = 0, rest = 1;
    for (int i = 0; i < N; i++) {
        dark += lights_scratch[i] == 0;
        glass += lights_scratch[i] == 0.5f;
        open += marked(active, i) && lights_scratch[i] == 1;
        rest = rest && (marked(active, i) || lights_scratch[i] == 1);
    }
    check("sun: before the blur some voxels see none, some half through the glass, some all, and inactive ones 1.0", dark && glass && open && rest);
    memcpy(before, lights_scratch, sizeof before);
    memcpy(after, before, sizeof after);
    check("light_blur: the same light from the same figures, and scratch as it was",
          geaidnosa_light_blur(axes, after, N, copy, N) == 0 && !memcmp(after, lights, sizeof after) && !memcmp(copy, before, sizeof copy));
    check("light_blur: a scratch of N−1, refuses 3", geaidnosa_light_blur(axes, after, N, copy, N - 1) == 3);
    printf("   light sum %016llx\n", (unsigned long long)sum_of(lights, sizeof lights));
}

static int kept_as_nans(const float *list) {
    for (int i = 0; i < 16 * N; i++)
        if (list[i] == list[i]) return 0;
    return 1;
}

static uint64_t marked_below(size_t next) {
    uint64_t count = 0;
    for (size_t i = 0; i < next; i++) count += (uint64_t)marked(active, (int)i);
    return count;
}

/* whether the bake takes a record of this next exactly where its rays lie between those that the voxels below can have fired: one fewer, one more and
 * numbers near 2^64 are refused 9, whatever the allowance, the record is handed back and nothing is written; both ends are good */
static int bounds_hold(float *v, float *s, size_t next) {
    static float v_kept[16 * N], s_kept[16 * N];
    const uint64_t cost = 384 + 64 * (uint64_t)(lamp_numbers / 6), least = 64 * marked_below(next), most = cost * marked_below(next);
    const uint64_t wrong[6] = {least - 1, most + 1, UINT64_MAX, UINT64_MAX - 63, UINT64_MAX - cost + 1, least ? 0 : 1}, good_ones[2] = {least, most};
    int good = 1;
    memcpy(v_kept, v, sizeof v_kept);
    memcpy(s_kept, s, sizeof s_kept);
    for (int k = 0; k < 6; k++)
        for (int few = 0; few < 2; few++) {
            GeaidnosaBakeAnswer b = bake(v, s, from(next, wrong[k]), few ? 0 : UINT64_MAX);
            good = good && b.refusal == 9 && is_progress(b.progress, next, wrong[k]) && b.rays == 0;
        }
    good = good && !memcmp(v, v_kept, sizeof v_kept) && !memcmp(s, s_kept, sizeof s_kept);
    for (int k = 0; k < 2; k++) {
        GeaidnosaBakeAnswer b = bake(v, s, from(next, good_ones[k]), cost);
        good = good && b.refusal == 0 && b.progress.rays == good_ones[k] + b.rays;
        memcpy(v, v_kept, sizeof v_kept);
        memcpy(s, s_kept, sizeof s_kept);
    }
    return good;
}

/* a bake in calls of one allowance from {0, 0} on: its record's rays are the sum of the calls' at each step, and at each the record's bounds hold */
static int counts_on(float *v, float *s, uint64_t allowance, uint64_t rays) {
    GeaidnosaProgress progress = begin;
    uint64_t total = 0;
    int good = bounds_hold(v, s, 0), calls = 0;
    while (good && progress.next < N) {
        GeaidnosaBakeAnswer b = bake(v, s, progress, allowance);
        total += b.rays;
        calls++;
        good = b.refusal == 0 && b.progress.next > progress.next && b.progress.rays == total && bounds_hold(v, s, b.progress.next);
        progress = b.progress;
    }
    return good && calls > 1 && is_progress(progress, N, rays);
}

/* Answers the rays of the unbroken bake, which it leaves in volume and scratch. */
static uint64_t check_bake(void) {
    static float v[16 * N], s[16 * N];
    memset(volume, 0xff, sizeof volume);
    memset(scratch, 0xff, sizeof scratch);
    GeaidnosaBakeAnswer b = bake(volume, scratch, begin, 383);
    check("bake: an allowance of 383, refuses 10 and writes nothing",
          b.refusal == 10 && is_progress(b.progress, 0, 0) && b.rays == 0 && kept_as_nans(volume) && kept_as_nans(scratch));
    uint64_t half = 64 * marked_below(N / 2), all = 64 * marked_below(N);
    b = bake(volume, scratch, from(N + 1, all), 384);
    check("bake: next above the count, refuses 9 and gives the record back", b.refusal == 9 && is_progress(b.progress, N + 1, all) && b.rays == 0);
    b = bake(volume, scratch, from(SIZE_MAX, UINT64_MAX), 384);
    check("bake: the highest record, refuses 9 and gives it back", b.refusal == 9 && is_progress(b.progress, SIZE_MAX, UINT64_MAX) && b.rays == 0);
    b = bake(volume, scratch, from(N / 2, half), 384);
    check("bake: under way with a volume of NaN, refuses 13 and gives the record back", b.refusal == 13 && is_progress(b.progress, N / 2, half) && b.rays == 0);
    b = bake(volume, scratch, from(N / 2, half - 1), 384);
    check("bake: the same a ray too few, refuses 9", b.refusal == 9 && is_progress(b.progress, N / 2, half - 1));
    check("bake: an unused bit of the mask set, each in turn, refuses 13 and writes nothing", refuses_unused(active, bake_refusal));
    check("bake: a word too few and one too many, refuses 3 and writes nothing", refuses_word_counts(&active_words, bake_refusal));
    b = bake(volume, scratch, begin, UINT64_MAX);
    uint64_t rays = b.rays;
    check("bake: unbroken, to the end, its rays the record's", b.refusal == 0 && is_progress(b.progress, N, rays) && rays > all);
    check("bake: the volume is the mean of scratch", same_mean(volume, scratch, 16, 0));
    const uint64_t allowances[2] = {384, 2000};
    for (int k = 0; k < 2; k++) {
        GeaidnosaProgress progress = begin;
        uint64_t total = 0;
        int calls = 0, good = 1;
        memset(v, 0xff, sizeof v);
        memset(s, 0xff, sizeof s);
        while (progress.next < N && good && calls <= N) {
            b = bake(v, s, progress, allowances[k]);
            good = b.refusal == 0 && b.progress.next > progress.next && b.rays <= allowances[k] && (b.progress.next == N || kept_as_nans(s));
            progress = b.progress;
            total += b.rays;
            good = good && progress.rays == total;
            calls++;
        }
        char line[160];
        snprintf(line, sizeof line, "bake: allowance %llu, the same volume and scratch bit for bit, the same rays in all, as the record says", (unsigned long long)allowances[k]);
        check(line, good && calls > 1 && total == rays && !memcmp(v, volume, sizeof v) && !memcmp(s, scratch, sizeof s));
        printf("   %d calls\n", calls);
    }
    b = bake(v, s, from(N, rays), 384);
    check("bake: finished, the record as it was, no rays and nothing written",
          b.refusal == 0 && is_progress(b.progress, N, rays) && b.rays == 0 && !memcmp(v, volume, sizeof v) && !memcmp(s, scratch, sizeof s));
    check("bake: rays so far are the calls' sum at each step, and a ray outside its bounds is refused 9", counts_on(v, s, 2000, rays));
    memcpy(v, scratch, sizeof v);
    check("coefficient_blur: the same volume from the same scratch", geaidnosa_coefficient_blur(axes, v, 16 * N, s, 16 * N) == 0 && !memcmp(v, volume, sizeof v));
    v[5] = INFINITY;
    check("coefficient_blur: an infinity, refuses 13", geaidnosa_coefficient_blur(axes, v, 16 * N, s, 16 * N) == 13);
    kinds[3] = 3;
    check("bake: a kind 3, refuses 6", bake(volume, scratch, from(N, rays), 384).refusal == 6);
    kinds[3] = 2;
    check("bake: a kind 2 is taken", bake(volume, scratch, from(N, rays), 384).refusal == 0);
    kinds[3] = 0;
    float x = points[9];
    points[9] = NAN;
    check("bake: a point NaN, refuses 5", bake(volume, scratch, from(N, rays), 384).refusal == 5);
    points[9] = x;
    lamp_numbers = 6;
    check("bake: one lamp, an allowance of 447, refuses 10", bake(v, s, begin, 447).refusal == 10);
    b = bake(v, s, begin, UINT64_MAX);
    check("bake: one lamp, more rays and another volume", b.refusal == 0 && is_progress(b.progress, N, b.rays) && b.rays > rays && memcmp(v, volume, sizeof v));
    printf("   rays with a lamp %llu, volume sum %016llx\n", (unsigned long long)b.rays, (unsigned long long)sum_of(v, sizeof v));
    check("bake: one lamp, rays so far are the calls' sum, and 448 a voxel its bound", counts_on(v, s, 2000, b.rays));
    lamp_numbers = 48;
    b = bake(v, s, begin, UINT64_MAX);
    check("bake: eight lamps, rays so far are the calls' sum, and 896 a voxel its bound", b.refusal == 0 && counts_on(v, s, 5000, b.rays));
    lamp_numbers = 5;
    check("bake: five numbers for a lamp, refuses 3", bake(v, s, begin, 448).refusal == 3);
    lamp_numbers = 54;
    check("bake: nine lamps, refuses 19, also with a bad record", bake(v, s, begin, 0).refusal == 19 && bake(v, s, from(N + 1, 0), 0).refusal == 19);
    lamp_numbers = 0;
    b = bake(v, s, begin, UINT64_MAX);
    check("bake: no lamp again, the same rays and volume", b.rays == rays && !memcmp(v, volume, sizeof v));
    printf("   rays %llu, volume sum %016llx, scratch sum %016llx\n", (unsigned long long)rays, (unsigned long long)sum_of(volume, sizeof volume),
           (unsigned long long)sum_of(scratch, sizeof scratch));
    return rays;
}

/* The unbroken bake stands in volume and scratch. */
static void check_join(uint64_t rays) {
    static float v[16 * N], s[16 * N], joined[16 * N], marks[16 * N];
    uint64_t whole[WORDS], total = 0;
    const int shares = 4;
    int good = 1, turn;
    memcpy(whole, active, sizeof whole);
    /* three shares that the active voxels are dealt out to in turn, and one that has none */
    for (int share = 0; share < shares; share++) {
        memset(active, 0, sizeof active);
        turn = 0;
        for (int i = 0; i < N; i++)
            if (marked(whole, i) && turn++ % 3 == share) active[i / 64] |= (uint64_t)1 << (i % 64);
        GeaidnosaBakeAnswer b = bake(v, s, begin, UINT64_MAX);
        const float *unblurred = share < 3 ? s : v;
        total += b.rays;
        if (share == 0) memcpy(joined, unblurred, sizeof joined);
        good = good && b.refusal == 0 && is_progress(b.progress, N, b.rays) && (share == 0 || geaidnosa_join(axes, active, WORDS, unblurred, 16 * N, joined, 16 * N) == 0);
    }
    check("join: four shares baked and joined, one without a voxel: the unbroken bake's scratch, and the same rays", good && total == rays && !memcmp(joined, scratch, sizeof joined));
    check("join: the mean of it is the unbroken bake's volume", geaidnosa_coefficient_blur(axes, joined, 16 * N, s, 16 * N) == 0 && !memcmp(joined, volume, sizeof joined));
    memcpy(active, whole, sizeof active);
    for (int i = 0; i < 16 * N; i++) marks[i] = (float)i;
    memset(joined, 0xff, sizeof joined);
    good = geaidnosa_join(axes, active, WORDS, marks, 16 * N, joined, 16 * N) == 0;
    for (int i = 0; i < 16 * N; i++) good = good && (marked(active, i / 16) ? joined[i] == marks[i] : joined[i] != joined[i]);
    check("join: marked voxels from the one, all others as they were", good);
    check("join: an unused bit of the mask set, each in turn, refuses 13 and writes nothing", refuses_unused(active, join_refusal));
    check("join: a word too few and one too many, refuses 3 and writes nothing", refuses_word_counts(&active_words, join_refusal));
    marks[16 * N - 1] = INFINITY;
    check("join: an infinity, refuses 13", geaidnosa_join(axes, active, WORDS, marks, 16 * N, joined, 16 * N) == 13);
    const GeaidnosaAxes none = {W, H, 0};
    check("join: volumes of 16·N−1, refuses 3; an axis of 0, refuses 1",
          geaidnosa_join(axes, active, WORDS, marks, 16 * N - 1, joined, 16 * N) == 3 && geaidnosa_join(axes, active, WORDS, marks, 16 * N, joined, 16 * N - 1) == 3 &&
              geaidnosa_join(none, active, WORDS, marks, 16 * N, joined, 16 * N) == 1);
}

static void check_lookups(void) {
    const GeaidnosaVec3 p = at(1.3f, 0.6f, 3.75f);
    float expected = between(lights, 1, 0, p);
    GeaidnosaLightAt l = geaidnosa_light_at(axes, corners, lights, N, p);
    check("light_at: between eight cells", l.refusal == 0 && !memcmp(&l.light, &expected, sizeof expected));
    GeaidnosaCoefficientsAt c = geaidnosa_coefficients_at(axes, corners, volume, 16 * N, p);
    int same = c.refusal == 0;
    for (int k = 0; k < 16; k++) {
        expected = between(volume, 16, k, p);
        same = same && !memcmp(&c.numbers[k], &expected, sizeof expected);
    }
    check("coefficients_at: sixteen numbers between eight cells", same);
    l = geaidnosa_light_at(axes, corners, lights, N, at(4097, 0, 0));
    check("light_at: a position of 4,097, refuses 11", l.refusal == 11 && l.light == 0);
    GeaidnosaCorners thin = {{0, 0, 0}, {W, H, 0}};
    c = geaidnosa_coefficients_at(axes, thin, volume, 16 * N, p);
    same = c.refusal == 2;
    for (int k = 0; k < 16; k++) same = same && c.numbers[k] == 0;
    check("coefficients_at: an edge of 0, refuses 2, all zeros", same);
    GeaidnosaPartStart part = geaidnosa_voxel_part(axes, volume, 16 * N, scratch, 16 * N, 7, 0);
    c = geaidnosa_coefficients_at(axes, corners, volume, 16 * N, at(2, 1, 0));
    check("voxel_part: voxel 7 starts at 112, and a lookup at its corner gives its numbers",
          part.refusal == 0 && part.start == 112 && c.refusal == 0 && !memcmp(volume + part.start, c.numbers, sizeof c.numbers));
    part = geaidnosa_voxel_part(axes, volume, 16 * N, scratch, 16 * N, N, 2);
    check("voxel_part: index N, refuses 11, start 0; its companion the same",
          part.refusal == 11 && part.start == 0 && geaidnosa_voxel_refusal(axes, volume, 16 * N, scratch, 16 * N, N, 2) == 11);
    part = geaidnosa_voxel_part(axes, volume, 16 * N, scratch, 16 * N, SIZE_MAX, 1);
    check("voxel_part: the highest index, refuses 11", part.refusal == 11 && part.start == 0);
    check("voxel_refusal: voxel N−1 of scratch, 0", geaidnosa_voxel_refusal(axes, volume, 16 * N, scratch, 16 * N, N - 1, 255) == 0);
    check("set_of_voxel: (2,2,2) and (0,0,1) use set 1", geaidnosa_set_of_voxel(2, 2, 2) == 1 && geaidnosa_set_of_voxel(0, 0, 1) == 1);
}

static void check_file(uint64_t occupieds, uint64_t actives) {
    static uint8_t again[BYTES], large[65537];
    static uint64_t a[WORDS + 1], o[WORDS + 1];
    static float l[N], v[16 * N];
    GeaidnosaNeeded needed = geaidnosa_volume_bytes(axes);
    check("volume_bytes: 96 + 70·N", needed.refusal == 0 && needed.bytes == BYTES);
    check("write_volume: one byte too many, refuses 3", geaidnosa_write_volume(axes, corners, lights, N, volume, 16 * N, occupied, WORDS, active, WORDS, large, BYTES + 1) == 3);
    check("write_volume: an unused bit of either mask set, each in turn, refuses 13 and writes nothing", refuses_unused(occupied, write_refusal) && refuses_unused(active, write_refusal));
    check("write_volume: a word of either mask too few and one too many, refuses 3 and writes nothing",
          refuses_word_counts(&occupied_words, write_refusal) && refuses_word_counts(&active_words, write_refusal));
    check("write_volume: written", write_refusal() == 0 && !memcmp(file, "VGRD\5\0\4\0\14\0\5\0", 12));
    GeaidnosaHead h = geaidnosa_file_axes(file, BYTES);
    check("file_axes: axes and corners as written",
          h.refusal == 0 && h.axes.width == W && h.axes.height == H && h.axes.depth == D && !memcmp(&h.corners, &corners, sizeof corners));
    memset(l, 0xff, sizeof l);
    memset(a, 0xff, sizeof a);
    memset(o, 0xff, sizeof o);
    h = geaidnosa_read_volume(file, BYTES, l, N, v, 16 * N - 1, o, WORDS, a, WORDS);
    int kept = h.refusal == 3 && h.axes.width == 0;
    for (int i = 0; i < N; i++) kept = kept && l[i] != l[i];
    check("read_volume: a volume of 16·N−1, refuses 3 and writes nothing", kept);
    for (int by = -1; by <= 1; by += 2) {
        kept = kept && geaidnosa_read_volume(file, BYTES, l, N, v, 16 * N, o, WORDS + by, a, WORDS).refusal == 3;
        kept = kept && geaidnosa_read_volume(file, BYTES, l, N, v, 16 * N, o, WORDS, a, WORDS + by).refusal == 3;
    }
    for (int i = 0; i <= WORDS; i++) kept = kept && a[i] == UINT64_MAX && o[i] == UINT64_MAX;
    check("read_volume: a word too few and one too many, refuses 3 and writes nothing", kept);
    h = geaidnosa_read_volume(file, BYTES, l, N, v, 16 * N, o, WORDS, a, WORDS);
    check("read_volume: every bit returns, unused bits 0",
          h.refusal == 0 && h.axes.depth == D && !memcmp(l, lights, sizeof l) && !memcmp(v, volume, sizeof v) && !memcmp(a, active, sizeof active) && !memcmp(o, occupied, sizeof occupied));
    check("write_volume: what was read gives the same bytes",
          geaidnosa_write_volume(h.axes, h.corners, l, N, v, 16 * N, o, WORDS, a, WORDS, again, BYTES) == 0 && !memcmp(again, file, BYTES));
    uint64_t zeros = 0;
    for (int i = 0; i < N; i++) zeros += lights[i] == 0;
    GeaidnosaFigures f = geaidnosa_file_figures(file, BYTES);
    check("file_figures: axes, counts and zero lights",
          f.refusal == 0 && f.width == W && f.height == H && f.depth == D && f.occupied == occupieds && f.active == actives && f.zeros == zeros);
    check("file_axes: one byte short, refuses 12", geaidnosa_file_axes(file, BYTES - 1).refusal == 12);
    file[BYTES - 1] = 0x7f;
    file[BYTES - 2] = 0x80;
    check("read_volume: a corner infinite, refuses 12", geaidnosa_read_volume(file, BYTES, l, N, v, 16 * N, o, WORDS, a, WORDS).refusal == 12);
    check("file_figures: 65,537 bytes, refuses 14", geaidnosa_file_figures(large, sizeof large).refusal == 14);
    check("file_figures: empty, refuses 12", geaidnosa_file_figures(file, 0).refusal == 12);
    printf("   file sum %016llx\n", (unsigned long long)sum_of(again, BYTES));
}

static void check_directions(void) {
    static float table[SKY + 1];
    const int offsets[9] = {32, 16, 48, 8, 40, 24, 56, 4, 36};
    memset(table, 0xff, sizeof table);
    int kept = geaidnosa_directions(table, SKY - 1) == 3 && geaidnosa_directions(table, SKY + 1) == 3 && geaidnosa_directions(table, 0) == 3;
    for (int i = 0; i <= SKY; i++) kept = kept && table[i] != table[i];
    check("directions: 1,727, 1,729 and no numbers, refuses 3 and writes nothing", kept);
    int good = geaidnosa_directions(table, SKY) == 0 && table[SKY] != table[SKY];
    for (int k = 0; k < 576; k++) {
        const float *d = &table[3 * k];
        double length = (double)d[0] * d[0] + (double)d[1] * d[1] + (double)d[2] * d[2], height = 1 - (k % 64 + offsets[k / 64]) % 64 / 32.0;
        good = good && fabs(length - 1) <= 1.0 / 1048576 && fabs(d[2] - height) <= 1.0 / 1048576;
    }
    check("directions: 576 unit vectors, each at its height, and nothing past them", good);
    printf("   directions sum %016llx\n", (unsigned long long)sum_of(table, SKY * sizeof(float)));
}

static void check_floats(void) {
    check("root_bits: of 4, of −1 and of −0", geaidnosa_root_bits(0x40800000) == 0x40000000 && geaidnosa_root_bits(0xbf800000) == 0x7fc00000 && geaidnosa_root_bits(0x80000000) == 0x80000000);
    check("floor_bits and ceiling_bits: of −.5", geaidnosa_floor_bits(0xbf000000) == 0xbf800000 && geaidnosa_ceiling_bits(0xbf000000) == 0x80000000);
    check("magnitude_bits: of −.5 and of a NaN", geaidnosa_magnitude_bits(0xbf000000) == 0x3f000000 && geaidnosa_magnitude_bits(0xffffffff) == 0x7fc00000);
    check("larger_bits and smaller_bits: of 1 and 2, of −0 and +0",
          geaidnosa_larger_bits(0x3f800000, 0x40000000) == 0x40000000 && geaidnosa_smaller_bits(0x3f800000, 0x40000000) == 0x3f800000 && geaidnosa_larger_bits(0x80000000, 0) == 0 &&
              geaidnosa_smaller_bits(0, 0x80000000) == 0x80000000);
}

static void check_counts(void) {
    static float many[9 * 4097];
    static uint32_t them[4097];
    static float d[4097];
    static size_t p[4097];
    GeaidnosaRay up = {{1, 1, 1}, {0, 0, 1}, 0, 1};
    check("transmittance: 4,097 triangles, refuses 4", geaidnosa_transmittance(many, 9 * 4097, them, 4097, kinds, M, numbers, 7 * M, up, d, 4097, p, 4097).refusal == 4);
    check("transmittance: 4,096 triangles without area, 1.0",
          geaidnosa_transmittance(many, 9 * 4096, them, 4096, kinds, M, numbers, 7 * M, up, d, 4096, p, 4096).transmittance == 1);
}

/* ---- solid walls: the hall with its glass bricked up, by the calls without hit scratch and by the others */

static GeaidnosaTransmitted solid_passes(GeaidnosaRay ray) { return geaidnosa_solid_transmittance(points, 9 * T, uses, T, kinds, M, numbers, 7 * M, ray); }

static GeaidnosaSunned solid_sun(GeaidnosaVec3 direction, const uint64_t *mask, float *l, float *s) {
    return geaidnosa_solid_sun(axes, corners, points, 9 * T, uses, T, kinds, M, numbers, 7 * M, direction, mask, active_words, l, N, s, N);
}

static GeaidnosaBakeAnswer solid_bake(float *v, float *s, GeaidnosaProgress progress, uint64_t allowance) {
    return geaidnosa_solid_bake(axes, corners, points, 9 * T, uses, T, kinds, M, numbers, 7 * M, light, ambient, sky, SKY, lamps, lamp_numbers, active, active_words, lights, N, v, 16 * N, s,
                                16 * N, progress, allowance);
}

static uint32_t solid_sun_refusal(void) { return solid_sun(light.direction, active, lights, lights_scratch).refusal; }

static uint32_t solid_bake_refusal(void) { return solid_bake(volume, scratch, begin, UINT64_MAX).refusal; }

static int same_answer(GeaidnosaBakeAnswer a, GeaidnosaBakeAnswer b) { return a.refusal == b.refusal && is_progress(a.progress, b.progress.next, b.progress.rays) && a.rays == b.rays; }

/* numbers that look like chance and are the same in every run, from 0 to 1 */
static float chance(void) {
    static uint64_t seed = 1;
    seed = seed * 6364136223846793005u + 1442695040888963407u;
    return (float)(seed >> 40) / 16777216;
}

static void check_solid_rays(void) {
    int dark = 0, open = 0, good = 1;
    for (int k = 0; k < 4096; k++) {
        float r[7];
        for (int i = 0; i < 7; i++) r[i] = chance();
        const GeaidnosaRay ray = {{W * r[0], H * r[1], D * r[2]}, {2 * r[3] - 1, 2 * r[4] - 1, 2 * r[5] - 1}, 1e-4f, k % 3 ? INFINITY : 3 * r[6]};
        GeaidnosaTransmitted a = passes(ray), b = solid_passes(ray);
        good = good && a.refusal == 0 && b.refusal == 0 && !memcmp(&a.transmittance, &b.transmittance, sizeof a.transmittance);
        dark += b.transmittance == 0;
        open += b.transmittance == 1;
    }
    check("solid_transmittance: 4,096 rays, the same bits, some 0 and all others 1.0", good && dark > 500 && open > 500 && dark + open == 4096);
    const GeaidnosaRay along = {{1, 1, 1}, {0, 0, 3}, 0, 1};
    check("solid_transmittance: refuses 8, all zeros", solid_passes(along).refusal == 8 && solid_passes(along).transmittance == 0);
    check("solid_transmittance: 9·T−1 numbers, refuses 3", geaidnosa_solid_transmittance(points, 9 * T - 1, uses, T, kinds, M, numbers, 7 * M, along).refusal == 3);
    static float many[9 * 4097];
    static uint32_t them[4097];
    const GeaidnosaRay up = {{1, 1, 1}, {0, 0, 1}, 0, 1};
    check("solid_transmittance: 4,097 triangles, refuses 4; 4,096 without area, 1.0; none, 1.0",
          geaidnosa_solid_transmittance(many, 9 * 4097, them, 4097, kinds, M, numbers, 7 * M, up).refusal == 4 &&
              geaidnosa_solid_transmittance(many, 9 * 4096, them, 4096, kinds, M, numbers, 7 * M, up).transmittance == 1 &&
              geaidnosa_solid_transmittance(many, 0, them, 0, kinds, M, numbers, 7 * M, up).transmittance == 1);
    printf("   %d rays end at a wall\n", dark);
}

/* Leaves the hall's lights in the list of that name. */
static void check_solid_sun(void) {
    static float l[N], s[N], nans[N];
    memset(l, 0xff, sizeof l);
    memset(s, 0xff, sizeof s);
    memset(nans, 0xff, sizeof nans);
    const GeaidnosaSunned a = sun(light.direction, active), b = solid_sun(light.direction, active, l, s);
    check("solid_sun: the same rays, light and scratch bit for bit", a.refusal == 0 && b.refusal == 0 && a.rays == b.rays && !memcmp(l, lights, sizeof l) && !memcmp(s, lights_scratch, sizeof s));
    const uint64_t none[WORDS] = {0};
    memset(s, 0xff, sizeof s);
    const GeaidnosaSunned still = solid_sun(light.direction, none, l, s);
    int ones = still.refusal == 0 && still.rays == 0 && !memcmp(s, nans, sizeof s);
    for (int i = 0; i < N; i++) ones = ones && l[i] == 1;
    check("solid_sun: no voxel active, all 1.0, scratch as it was", ones);
    memset(l, 0xff, sizeof l);
    const GeaidnosaSunned refused = solid_sun(at(0, 0, 0), active, l, s);
    check("solid_sun: no direction, refuses 7 and writes nothing", refused.refusal == 7 && refused.rays == 0 && !memcmp(l, nans, sizeof l) && !memcmp(s, nans, sizeof s));
    check("solid_sun: an unused bit of the mask set, each in turn, refuses 13 and writes nothing", refuses_unused(active, solid_sun_refusal));
    check("solid_sun: a word too few and one too many, refuses 3 and writes nothing", refuses_word_counts(&active_words, solid_sun_refusal));
    check("solid_sun: a scratch of N−1, refuses 3",
          geaidnosa_solid_sun(axes, corners, points, 9 * T, uses, T, kinds, M, numbers, 7 * M, light.direction, active, WORDS, l, N, s, N - 1).refusal == 3);
    printf("   light sum %016llx\n", (unsigned long long)sum_of(lights, sizeof lights));
}

/* A bake by the other call, one by the solid call and one by both in turn, in calls of one allowance: at each step the same answer and the same lists. */
static int alternates(uint64_t allowance, uint64_t rays) {
    static float v[3][16 * N], s[3][16 * N];
    GeaidnosaProgress progress = begin;
    int good = 1, calls = 0;
    memset(v, 0xff, sizeof v);
    memset(s, 0xff, sizeof s);
    while (good && progress.next < N && calls <= N) {
        const GeaidnosaBakeAnswer a = bake(v[0], s[0], progress, allowance), b = solid_bake(v[1], s[1], progress, allowance);
        const GeaidnosaBakeAnswer c = (calls % 2 ? bake : solid_bake)(v[2], s[2], progress, allowance);
        good = a.refusal == 0 && same_answer(a, b) && same_answer(a, c);
        for (int k = 1; k < 3; k++) good = good && !memcmp(v[k], v[0], sizeof v[0]) && !memcmp(s[k], s[0], sizeof s[0]);
        progress = a.progress;
        calls++;
    }
    return good && calls > 1 && is_progress(progress, N, rays) && !memcmp(v[0], volume, sizeof volume) && !memcmp(s[0], scratch, sizeof scratch);
}

static void check_solid_bake(void) {
    static float v[16 * N], s[16 * N];
    const char *const with[2] = {"no lamp", "one lamp"};
    char line[160];
    for (int lamp = 0; lamp < 2; lamp++) {
        lamp_numbers = 6 * (size_t)lamp;
        const GeaidnosaBakeAnswer a = bake(volume, scratch, begin, UINT64_MAX), b = solid_bake(v, s, begin, UINT64_MAX);
        snprintf(line, sizeof line, "solid_bake: %s, unbroken, the same answer, volume and scratch bit for bit", with[lamp]);
        check(line, a.refusal == 0 && is_progress(a.progress, N, a.rays) && same_answer(a, b) && !memcmp(v, volume, sizeof v) && !memcmp(s, scratch, sizeof s));
        snprintf(line, sizeof line, "solid_bake: %s, the two calls in turn, the same at each step and at the end", with[lamp]);
        check(line, alternates(384 + 64 * (uint64_t)lamp, a.rays) && alternates(5000, a.rays));
        printf("   rays %llu, volume sum %016llx, scratch sum %016llx\n", (unsigned long long)a.rays, (unsigned long long)sum_of(volume, sizeof volume),
               (unsigned long long)sum_of(scratch, sizeof scratch));
        const GeaidnosaProgress wrong[5] = {from(N + 1, a.rays), from(SIZE_MAX, UINT64_MAX), from(N, 0), from(N, a.rays + 448 * N), from(1, UINT64_MAX)};
        int good = 1;
        for (int k = 0; k < 5; k++) good = good && solid_bake(volume, scratch, wrong[k], UINT64_MAX).refusal == 9 && same_answer(solid_bake(volume, scratch, wrong[k], 0), bake(volume, scratch, wrong[k], 0));
        good = good && solid_bake(volume, scratch, begin, 383).refusal == 10 && same_answer(solid_bake(volume, scratch, from(N, a.rays), 500), bake(volume, scratch, from(N, a.rays), 500));
        snprintf(line, sizeof line, "solid_bake: %s, a record outside its bounds refuses 9, 383 rays 10, a finished bake stays, and nothing is written", with[lamp]);
        check(line, good && !memcmp(v, volume, sizeof v) && !memcmp(s, scratch, sizeof s));
    }
    check("solid_bake: an unused bit of the mask set, each in turn, refuses 13 and writes nothing", refuses_unused(active, solid_bake_refusal));
    check("solid_bake: a word too few and one too many, refuses 3 and writes nothing", refuses_word_counts(&active_words, solid_bake_refusal));
    check("solid_bake: a volume and a scratch of 16·N−1, refuses 3",
          geaidnosa_solid_bake(axes, corners, points, 9 * T, uses, T, kinds, M, numbers, 7 * M, light, ambient, sky, SKY, lamps, 0, active, WORDS, lights, N, v, 16 * N - 1, s, 16 * N, begin, 384).refusal == 3 &&
              geaidnosa_solid_bake(axes, corners, points, 9 * T, uses, T, kinds, M, numbers, 7 * M, light, ambient, sky, SKY, lamps, 0, active, WORDS, lights, N, v, 16 * N, s, 16 * N - 1, begin, 384).refusal == 3);
    lamp_numbers = 0;
}

/* with a kind at a place of a list that has one material more than the triangles use, each of the three refuses 6, all zeros, and writes nothing; so also where
 * the ray, the direction and the record are bad too */
static int refuses_kind(uint8_t kind, size_t place) {
    uint8_t more_kinds[M + 1] = {0};
    float more_numbers[7 * (M + 1)] = {0};
    const GeaidnosaRay up = {{1, 1, 1}, {0, 0, 1}, 0, 1}, bad = {{1, 1, 1}, {0, 0, 3}, 0, 1};
    const uint64_t before = written_sum();
    int good = 1;
    memcpy(more_numbers, numbers, sizeof numbers);
    more_kinds[place] = kind;
    for (int worse = 0; worse < 2; worse++) {
        const GeaidnosaTransmitted t = geaidnosa_solid_transmittance(points, 9 * T, uses, T, more_kinds, M + 1, more_numbers, 7 * (M + 1), worse ? bad : up);
        const GeaidnosaSunned s = geaidnosa_solid_sun(axes, corners, points, 9 * T, uses, T, more_kinds, M + 1, more_numbers, 7 * (M + 1), worse ? at(0, 0, 0) : light.direction, active, WORDS,
                                                      lights, N, lights_scratch, N);
        const GeaidnosaProgress progress = worse ? from(N + 1, 7) : begin;
        const GeaidnosaBakeAnswer b = geaidnosa_solid_bake(axes, corners, points, 9 * T, uses, T, more_kinds, M + 1, more_numbers, 7 * (M + 1), light, ambient, sky, SKY, lamps, 0, active, WORDS, lights,
                                                           N, volume, 16 * N, scratch, 16 * N, progress, worse ? 0 : UINT64_MAX);
        good = good && t.refusal == 6 && t.transmittance == 0 && s.refusal == 6 && s.rays == 0 && b.refusal == 6 && is_progress(b.progress, progress.next, progress.rays) && b.rays == 0;
    }
    return good && written_sum() == before;
}

static void check_solid(void) {
    kinds[1] = 0;
    check_solid_rays();
    check_solid_sun();
    check_solid_bake();
    int good = 1;
    for (int kind = 1; kind < 256; kind++)
        for (size_t place = 0; place <= M; place++) good = good && refuses_kind((uint8_t)kind, place);
    check("solid calls: every kind above 0 at every place, the last where no triangle uses it, refuses 6 and writes nothing", good);
    const float x = points[9];
    points[9] = NAN;
    kinds[1] = 1;
    const GeaidnosaRay up = {{1, 1, 1}, {0, 0, 1}, 0, 1};
    check("solid calls: a point NaN beside a kind 1, refuses 5", solid_passes(up).refusal == 5 && solid_sun_refusal() == 5 && solid_bake_refusal() == 5);
    points[9] = x;
}

/* ---- box trees: the builder's, a leaf of all triangles and a chain, by the calls through a tree and by the others */

enum { MOST = 2 * T - 1 };

typedef struct Tree {
    float boxes[6 * (MOST + 1)]; /* a list has room for one more than is lent */
    uint32_t nodes[3 * (MOST + 1)], order[T + 1];
    size_t box_numbers, node_numbers, order_numbers; /* as many are lent */
} Tree;

#define SCENE points, 9 * T, uses, T, kinds, M, numbers, 7 * M
#define LENT(t) (t)->boxes, (t)->box_numbers, (t)->nodes, (t)->node_numbers, (t)->order, (t)->order_numbers

static GeaidnosaRayHit tree_nearest(const Tree *tree, GeaidnosaRay ray) { return geaidnosa_tree_nearest(SCENE, LENT(tree), ray); }

static GeaidnosaTransmitted tree_passes(const Tree *tree, GeaidnosaRay ray) { return geaidnosa_tree_transmittance(SCENE, LENT(tree), ray, distances, T, places, T); }

static GeaidnosaSunned tree_sun(const Tree *tree, GeaidnosaVec3 direction, float *l, float *s) {
    return geaidnosa_tree_sun(axes, corners, SCENE, LENT(tree), direction, active, active_words, l, N, s, N, distances, T, places, T);
}

static GeaidnosaBakeAnswer tree_bake(const Tree *tree, GeaidnosaLight sun_light, float *v, float *s, GeaidnosaProgress progress, uint64_t allowance) {
    return geaidnosa_tree_bake(axes, corners, SCENE, LENT(tree), sun_light, ambient, sky, SKY, lamps, lamp_numbers, active, active_words, lights, N, v, 16 * N, s, 16 * N, distances, T, places, T,
                               progress, allowance);
}

/* the tree of the hall's points, and what it answers */
static GeaidnosaTreeBuilt built(Tree *tree) {
    const GeaidnosaTreeBuilt b = geaidnosa_build_tree(points, 9 * T, tree->boxes, 6 * T, tree->nodes, 3 * T, tree->order, T);
    tree->box_numbers = 6 * b.boxes;
    tree->node_numbers = 3 * b.boxes;
    tree->order_numbers = b.places;
    return b;
}

static void large_box(Tree *tree, size_t box) {
    for (size_t a = 0; a < 3; a++) tree->boxes[6 * box + a] = -100, tree->boxes[6 * box + 3 + a] = 100;
}

static void node(Tree *tree, size_t box, uint32_t count, size_t first, size_t second) {
    tree->nodes[3 * box] = count;
    tree->nodes[3 * box + 1] = (uint32_t)first;
    tree->nodes[3 * box + 2] = (uint32_t)second;
    large_box(tree, box);
    tree->box_numbers = 6 * (box + 1);
    tree->node_numbers = 3 * (box + 1);
}

static void one_leaf(Tree *tree) {
    node(tree, 0, T, 0, 12345); /* a leaf's third number is not read */
    for (uint32_t i = 0; i < T; i++) tree->order[i] = T - 1 - i;
    tree->order_numbers = T;
}

/* a box above each triangle, the last but one the deepest: 13 boxes one in the other */
static void chain(Tree *tree) {
    one_leaf(tree);
    for (size_t k = 0; k + 1 < T; k++) {
        node(tree, 2 * k, 0, 2 * k + 1, 2 * k + 2);
        node(tree, 2 * k + 1, 1, k, 0);
    }
    node(tree, 2 * T - 2, 1, T - 1, 0);
}

/* every triangle once in the leaves, its padded box inside its leaf's, halves behind their box and inside it */
static int holds_together(const Tree *tree) {
    const size_t count = tree->node_numbers / 3;
    int seen[T] = {0}, parents[MOST] = {0};
    for (size_t k = 0; k < count; k++) {
        const uint32_t *n = &tree->nodes[3 * k];
        const float *box = &tree->boxes[6 * k];
        for (uint32_t i = 1; n[0] == 0 && i < 3; i++) {
            if (n[i] <= k || n[i] >= count) return 0;
            parents[n[i]]++;
            for (int a = 0; a < 3; a++)
                if (tree->boxes[6 * n[i] + a] < box[a] || box[3 + a] < tree->boxes[6 * n[i] + 3 + a]) return 0;
        }
        if (n[0] > 4 || n[1] + n[0] > tree->order_numbers + (n[0] == 0 ? count : 0)) return 0;
        for (uint32_t i = 0; i < n[0]; i++) {
            const uint32_t place = tree->order[n[1] + i];
            if (place >= T || seen[place]++) return 0;
            for (int a = 0; a < 9; a++)
                if (points[9 * place + a] - 1e-5f < box[a % 3] || box[3 + a % 3] < points[9 * place + a] + 1e-5f) return 0;
        }
    }
    for (int i = 0; i < T; i++)
        if (!seen[i]) return 0;
    for (size_t k = 1; k < count; k++)
        if (parents[k] != 1) return 0;
    return 1;
}

static uint64_t tree_sum(const Tree *tree) { return sum_on(sum_on(sum_of(tree->boxes, sizeof tree->boxes), tree->nodes, sizeof tree->nodes), tree->order, sizeof tree->order); }

static void check_builder(Tree *tree) {
    memset(tree, 0xff, sizeof *tree);
    const uint64_t before = tree_sum(tree);
    static float many[9 * 4097];
    static float room[6 * 4097];
    static uint32_t halves[3 * 4097], run[4097];
    int good = geaidnosa_build_tree(points, 9 * T - 1, tree->boxes, 6 * T, tree->nodes, 3 * T, tree->order, T).refusal == 3;
    good = good && geaidnosa_build_tree(points, 9 * T, tree->boxes, 6 * T - 1, tree->nodes, 3 * T, tree->order, T).refusal == 3;
    good = good && geaidnosa_build_tree(points, 9 * T, tree->boxes, 6 * T, tree->nodes, 3 * T - 1, tree->order, T).refusal == 3;
    good = good && geaidnosa_build_tree(points, 9 * T, tree->boxes, 6 * T, tree->nodes, 3 * T, tree->order, T - 1).refusal == 3;
    good = good && geaidnosa_build_tree(many, 9 * 4097, room, 6 * 4097, halves, 3 * 4097, run, 4097).refusal == 4;
    const float x = points[9];
    points[9] = NAN;
    const GeaidnosaTreeBuilt refused = built(tree);
    points[9] = x;
    check("build_tree: 9·T−1 points, a list one short, 3; 4,097 triangles, 4; a point NaN, 5; nothing is written",
          good && refused.refusal == 5 && refused.boxes == 0 && refused.places == 0 && tree_sum(tree) == before);
    const GeaidnosaTreeBuilt b = built(tree);
    good = b.refusal == 0 && b.boxes == 7 && b.places == T;
    for (size_t k = 42; k < 6 * (MOST + 1); k++) good = good && tree->boxes[k] != tree->boxes[k];
    for (size_t k = 21; k < 3 * (MOST + 1); k++) good = good && tree->nodes[k] == UINT32_MAX;
    check("build_tree: fourteen triangles, seven boxes, and what stands behind the tree stays", good && tree->order[T] == UINT32_MAX);
    check("build_tree: every triangle once, boxes inside the one above", holds_together(tree));
    const GeaidnosaTreeBuilt none = geaidnosa_build_tree(many, 0, room, 0, halves, 0, run, 0), absent = geaidnosa_build_tree(many, 9 * 4096, room, 6 * 4096, halves, 3 * 4096, run, 4096);
    check("build_tree: no triangle, and 4,096 without area: no box", none.refusal == 0 && none.boxes == 0 && none.places == 0 && absent.refusal == 0 && absent.boxes == 0 && absent.places == 0);
    printf("   tree sum %016llx\n", (unsigned long long)sum_on(sum_on(sum_of(tree->boxes, 42 * sizeof(float)), tree->nodes, 21 * sizeof(uint32_t)), tree->order, T * sizeof(uint32_t)));
}

static void check_tree_rays(const Tree *trees, int count) {
    int met = 0, good = 1;
    for (int k = 0; k < 4096; k++) {
        float r[7];
        for (int i = 0; i < 7; i++) r[i] = chance();
        const GeaidnosaRay ray = {{W * r[0], H * r[1], D * r[2]}, {2 * r[3] - 1, 2 * r[4] - 1, 2 * r[5] - 1}, 1e-4f, k % 3 ? INFINITY : 3 * r[6]};
        const GeaidnosaRayHit a = geaidnosa_nearest(SCENE, ray);
        const GeaidnosaTransmitted p = passes(ray);
        for (int i = 0; i < count; i++) {
            const GeaidnosaRayHit b = tree_nearest(&trees[i], ray);
            const GeaidnosaTransmitted q = tree_passes(&trees[i], ray);
            good = good && a.refusal == 0 && (a.hit ? is_hit(b, a.place, a.t, a.u, a.v, a.front) : no_hit(b, 0));
            good = good && q.refusal == 0 && !memcmp(&p.transmittance, &q.transmittance, sizeof p.transmittance);
        }
        met += (int)a.hit;
    }
    check("tree_nearest and tree_transmittance: 4,096 rays through each of three trees, the bits of a plain run", good && met > 500);
    printf("   %d rays meet a triangle\n", met);
    /* a hit off the triangle's own padded box: found without a tree, left out with any */
    const uint32_t patterns[15] = {0x3ec7ae15, 0x3e55b37e, 0x3ece762a, 0xbd79ecde, 0x3e99999a, 0, 0x3ec7ae15, 0xbd30048c, 0x3e367474, 0x3ecb0429, 0xba486500, 0x3e64483b, 0x3f563f9f, 0x3de57e3c, 0x3f800000};
    float f[15], box[6];
    uint32_t leaf[3], run = 9;
    memcpy(f, patterns, sizeof f);
    const GeaidnosaRay beside = {{f[9], f[10], f[11]}, {f[12], f[13], f[14]}, 0, INFINITY};
    const GeaidnosaTreeBuilt b = geaidnosa_build_tree(f, 9, box, 6, leaf, 3, &run, 1);
    check("tree_nearest and tree_transmittance: a hit off the triangle's own box is left out",
          b.refusal == 0 && b.boxes == 1 && b.places == 1 && run == 0 && geaidnosa_nearest(f, 9, uses, 1, kinds, M, numbers, 7 * M, beside).hit == 1 &&
              no_hit(geaidnosa_tree_nearest(f, 9, uses, 1, kinds, M, numbers, 7 * M, box, 6, leaf, 3, &run, 1, beside), 0) &&
              geaidnosa_transmittance(f, 9, uses, 1, kinds, M, numbers, 7 * M, beside, distances, T, places, T).transmittance == 0 &&
              geaidnosa_tree_transmittance(f, 9, uses, 1, kinds, M, numbers, 7 * M, box, 6, leaf, 3, &run, 1, beside, distances, T, places, T).transmittance == 1);
}

/* Leaves the hall's lights in the list of that name. */
static void check_tree_sun(const Tree *trees, int count) {
    static float l[N], s[N], nans[N];
    memset(nans, 0xff, sizeof nans);
    const GeaidnosaSunned a = sun(light.direction, active);
    int good = a.refusal == 0;
    for (int i = 0; i < count; i++) {
        memset(l, 0xff, sizeof l);
        memset(s, 0xff, sizeof s);
        const GeaidnosaSunned b = tree_sun(&trees[i], light.direction, l, s);
        good = good && b.refusal == 0 && a.rays == b.rays && !memcmp(l, lights, sizeof l) && !memcmp(s, lights_scratch, sizeof s);
    }
    check("tree_sun: through each of three trees the same rays, light and scratch bit for bit", good);
    const uint64_t none[WORDS] = {0};
    memset(s, 0xff, sizeof s);
    const GeaidnosaSunned still = geaidnosa_tree_sun(axes, corners, SCENE, LENT(trees), light.direction, none, WORDS, l, N, s, N, distances, T, places, T);
    good = still.refusal == 0 && still.rays == 0 && !memcmp(s, nans, sizeof s);
    for (int i = 0; i < N; i++) good = good && l[i] == 1;
    check("tree_sun: no voxel active, all 1.0, scratch as it was", good);
    check("tree_sun: hit scratch shorter than the triangles, refuses 3",
          geaidnosa_tree_sun(axes, corners, SCENE, LENT(trees), light.direction, active, WORDS, l, N, s, N, distances, T - 1, places, T).refusal == 3);
}

/* A bake in calls of one allowance, each through the next of the trees, is the volume that stands in the lists. */
static int goes_on(const Tree *trees, int count, uint64_t allowance, uint64_t rays) {
    static float v[16 * N], s[16 * N];
    GeaidnosaProgress progress = begin;
    int calls = 0;
    memset(v, 0xff, sizeof v);
    memset(s, 0xff, sizeof s);
    while (progress.next < N && calls <= N) {
        const GeaidnosaBakeAnswer a = tree_bake(&trees[calls % count], light, v, s, progress, allowance);
        if (a.refusal) return 0;
        progress = a.progress;
        calls++;
    }
    return calls > count && is_progress(progress, N, rays) && !memcmp(v, volume, sizeof volume) && !memcmp(s, scratch, sizeof scratch);
}

static void check_tree_bake(const Tree *trees, int count) {
    static float v[16 * N], s[16 * N];
    const char *const with[2] = {"no lamp", "one lamp"};
    char line[160];
    for (int lamp = 0; lamp < 2; lamp++) {
        lamp_numbers = 6 * (size_t)lamp;
        const GeaidnosaBakeAnswer a = bake(volume, scratch, begin, UINT64_MAX);
        int good = a.refusal == 0 && is_progress(a.progress, N, a.rays);
        for (int i = 0; i < count; i++) {
            const GeaidnosaBakeAnswer b = tree_bake(&trees[i], light, v, s, begin, UINT64_MAX);
            good = good && same_answer(a, b) && !memcmp(v, volume, sizeof v) && !memcmp(s, scratch, sizeof s);
        }
        snprintf(line, sizeof line, "tree_bake: %s, unbroken, through each of three trees the same answer, volume and scratch bit for bit", with[lamp]);
        check(line, good);
        snprintf(line, sizeof line, "tree_bake: %s, in calls of the least allowance and of 5,000, each through another tree, the same", with[lamp]);
        check(line, goes_on(trees, count, 384 + 64 * (uint64_t)lamp, a.rays) && goes_on(trees, count, 5000, a.rays));
        good = same_answer(tree_bake(trees, light, v, s, a.progress, 500), bake(v, s, a.progress, 500));
        snprintf(line, sizeof line, "tree_bake: %s, a finished bake stays", with[lamp]);
        check(line, good && !memcmp(v, volume, sizeof v) && !memcmp(s, scratch, sizeof s));
    }
    lamp_numbers = 0;
}

/* each of the four refuses 16, all zeros, and writes nothing */
static int refused_by_all(const Tree *tree) {
    const GeaidnosaRay up = {{1, 1, 1}, {0, 0, 1}, 0, 1};
    const uint64_t before = written_sum();
    const GeaidnosaTransmitted t = tree_passes(tree, up);
    const GeaidnosaSunned s = tree_sun(tree, light.direction, lights, lights_scratch);
    const GeaidnosaBakeAnswer b = tree_bake(tree, light, volume, scratch, from(3, 5), 777);
    return no_hit(tree_nearest(tree, up), 16) && t.refusal == 16 && t.transmittance == 0 && s.refusal == 16 && s.rays == 0 && b.refusal == 16 && is_progress(b.progress, 3, 5) && b.rays == 0 &&
           written_sum() == before;
}

/* a number above 0, so many of the least steps on */
static float stepped(float x, int steps) {
    uint32_t bits;
    memcpy(&bits, &x, sizeof x);
    bits += (uint32_t)steps;
    memcpy(&x, &bits, sizeof x);
    return x;
}

static void check_bad_trees(const Tree *good_tree) {
    Tree t;
    int good = 1;
#define BROKEN(change) t = *good_tree, change, good = good && refused_by_all(&t)
    BROKEN(t.box_numbers -= 1);
    BROKEN(t.box_numbers += 6);
    BROKEN(t.node_numbers -= 1);
    BROKEN(t.node_numbers -= 3);
    BROKEN(t.order_numbers -= 1);
    BROKEN(t.order_numbers += 1);
    check("calls through a tree: lists that do not fit each other, each in turn, refuses 16 and writes nothing", good);
    good = 1;
    BROKEN(t.nodes[1] = t.nodes[2]);
    BROKEN(t.nodes[1] = 0);
    BROKEN(t.nodes[2] = 7);
    BROKEN(t.nodes[6] = 0);
    BROKEN(t.nodes[6] -= 1);
    BROKEN(t.nodes[7] += 1);
    BROKEN(t.order[0] = t.order[1]);
    BROKEN(t.order[0] = T);
    check("calls through a tree: a second parent, a half before its box or past the list, a leaf short of a triangle, a triangle twice: 16", good);
    good = 1;
    for (int k = 0; k < 42; k++) {
        BROKEN(t.boxes[k] = NAN);
        BROKEN(t.boxes[k] = stepped(t.boxes[k], k % 6 < 3 ? 1 : -1));
    }
    check("calls through a tree: each number of each box NaN, and the least step too small: 16", good);
    t = *good_tree;
    t.box_numbers = t.node_numbers = t.order_numbers = 0;
    check("calls through a tree: the empty tree of a hall, 16", refused_by_all(&t));
#undef BROKEN
}

static void check_tree_rows(const Tree *tree) {
    Tree wrong = *tree;
    wrong.order[0] = T;
    const GeaidnosaRay bad = {{1, 1, 1}, {0, 0, 3}, 0, 1};
    const GeaidnosaLight dark = {{0, 0, 0}, {1, 1, 1}};
    const uint64_t before = written_sum(), word = active[WORDS - 1];
    kinds[3] = 3;
    int good = no_hit(tree_nearest(&wrong, bad), 6) && tree_passes(&wrong, bad).refusal == 6;
    kinds[3] = 0;
    good = good && no_hit(tree_nearest(&wrong, bad), 16) && tree_passes(&wrong, bad).refusal == 16 && no_hit(tree_nearest(tree, bad), 8) && tree_passes(tree, bad).refusal == 8;
    check("tree_nearest and tree_transmittance: 6 before 16 before 8", good);
    active[WORDS - 1] |= (uint64_t)1 << 63;
    good = tree_sun(&wrong, dark.direction, lights, lights_scratch).refusal == 7 && tree_sun(&wrong, light.direction, lights, lights_scratch).refusal == 16 &&
           tree_sun(tree, light.direction, lights, lights_scratch).refusal == 13;
    check("tree_sun: 7 before 16 before 13", good);
    lamp_numbers = 54;
    good = tree_bake(&wrong, dark, volume, scratch, from(N + 1, 0), 0).refusal == 7 && tree_bake(&wrong, light, volume, scratch, from(N + 1, 0), 0).refusal == 19;
    lamp_numbers = 0;
    good = good && tree_bake(&wrong, light, volume, scratch, from(N + 1, 0), 0).refusal == 16 && tree_bake(tree, light, volume, scratch, from(N + 1, 0), 0).refusal == 9 &&
           tree_bake(tree, light, volume, scratch, begin, 383).refusal == 10 && tree_bake(tree, light, volume, scratch, begin, 384).refusal == 13;
    active[WORDS - 1] = word;
    check("tree_bake: 7, 19, 16, 9, 10, 13, in this order", good && written_sum() == before);
}

static void check_empty_tree(void) {
    static float flat[18];
    static float l[N], s[N], l2[N], s2[N], v[16 * N], b[16 * N], v2[16 * N], b2[16 * N];
    const GeaidnosaRay up = {{1, 1, 1}, {0, 0, 1}, 0, 1};
    int good = 1;
    for (size_t t = 0; t <= 2; t += 2) {
        good = good && no_hit(geaidnosa_tree_nearest(flat, 9 * t, uses, t, kinds, M, numbers, 7 * M, flat, 0, uses, 0, uses, 0, up), 0);
        good = good && geaidnosa_tree_transmittance(flat, 9 * t, uses, t, kinds, M, numbers, 7 * M, flat, 0, uses, 0, uses, 0, up, distances, T, places, T).transmittance == 1;
        const GeaidnosaSunned a = geaidnosa_sun(axes, corners, flat, 9 * t, uses, t, kinds, M, numbers, 7 * M, light.direction, active, WORDS, l, N, s, N, distances, T, places, T);
        const GeaidnosaSunned c = geaidnosa_tree_sun(axes, corners, flat, 9 * t, uses, t, kinds, M, numbers, 7 * M, flat, 0, uses, 0, uses, 0, light.direction, active, WORDS, l2, N, s2, N, distances, T, places, T);
        good = good && a.refusal == 0 && c.refusal == 0 && a.rays == c.rays && !memcmp(l, l2, sizeof l) && !memcmp(s, s2, sizeof s);
        const GeaidnosaBakeAnswer d = geaidnosa_bake(axes, corners, flat, 9 * t, uses, t, kinds, M, numbers, 7 * M, light, ambient, sky, SKY, lamps, 6, active, WORDS, l, N, v, 16 * N, b, 16 * N,
                                                     distances, T, places, T, begin, UINT64_MAX);
        const GeaidnosaBakeAnswer e = geaidnosa_tree_bake(axes, corners, flat, 9 * t, uses, t, kinds, M, numbers, 7 * M, flat, 0, uses, 0, uses, 0, light, ambient, sky, SKY, lamps, 6, active, WORDS, l, N,
                                                          v2, 16 * N, b2, 16 * N, distances, T, places, T, begin, UINT64_MAX);
        good = good && d.refusal == 0 && same_answer(d, e) && !memcmp(v, v2, sizeof v) && !memcmp(b, b2, sizeof b);
    }
    check("calls through the empty tree: no triangle, and two without area, as without a tree", good);
    const uint32_t leaf[3] = {1, 0, 0}, run[1] = {0};
    const float box[6] = {-9, -9, -9, 9, 9, 9};
    check("tree_nearest: a box where no triangle is present, 16", no_hit(geaidnosa_tree_nearest(flat, 9, uses, 1, kinds, M, numbers, 7 * M, box, 6, leaf, 3, run, 1, up), 16));
}

/* A roof of as many triangles as are accepted, wavy so that no two are alike, over the hall. */
static void check_largest_tree(void) {
    enum { MANY = 4096 };
    static float roof[9 * MANY], b[6 * MANY], d[MANY];
    static uint32_t them[MANY], n[3 * MANY], o[MANY];
    static size_t p[MANY];
    for (int k = 0; k < MANY; k++) {
        const float x = (float)(k % 64) * W / 64, y = (float)(k / 64) * H / 64, z = 8 + chance();
        const float corner[9] = {x, y, z, x + 0.1f, y, z, x, y + 0.1f, z + 0.25f};
        memcpy(&roof[9 * k], corner, sizeof corner);
        them[k] = k % 3 ? 1 : 0;
    }
    const GeaidnosaTreeBuilt built_many = geaidnosa_build_tree(roof, 9 * MANY, b, 6 * MANY, n, 3 * MANY, o, MANY);
    int good = built_many.refusal == 0 && built_many.boxes == 2047 && built_many.places == MANY, met = 0;
    for (int k = 0; good && k < 64; k++) {
        const GeaidnosaRay ray = {{W * chance(), H * chance(), 1}, {0.2f * chance() - 0.1f, 0.2f * chance() - 0.1f, 1}, 0, INFINITY};
        const GeaidnosaRayHit a = geaidnosa_nearest(roof, 9 * MANY, them, MANY, kinds, M, numbers, 7 * M, ray);
        const GeaidnosaRayHit c = geaidnosa_tree_nearest(roof, 9 * MANY, them, MANY, kinds, M, numbers, 7 * M, b, 6 * 2047, n, 3 * 2047, o, MANY, ray);
        const GeaidnosaTransmitted e = geaidnosa_transmittance(roof, 9 * MANY, them, MANY, kinds, M, numbers, 7 * M, ray, d, MANY, p, MANY);
        const GeaidnosaTransmitted f = geaidnosa_tree_transmittance(roof, 9 * MANY, them, MANY, kinds, M, numbers, 7 * M, b, 6 * 2047, n, 3 * 2047, o, MANY, ray, d, MANY, p, MANY);
        good = a.refusal == 0 && (a.hit ? is_hit(c, a.place, a.t, a.u, a.v, a.front) : no_hit(c, 0)) && f.refusal == 0 && !memcmp(&e, &f, sizeof e);
        met += (int)a.hit;
    }
    check("build_tree, tree_nearest and tree_transmittance: 4,096 triangles in 2,047 boxes, 64 rays as without a tree", good && met > 20);
}

static void check_trees(void) {
    static Tree trees[3];
    check_builder(&trees[0]);
    one_leaf(&trees[1]);
    chain(&trees[2]);
    check_tree_rays(trees, 3);
    check_tree_sun(trees, 3);
    check_tree_bake(trees, 3);
    check_bad_trees(&trees[0]);
    check_tree_rows(&trees[0]);
    check_empty_tree();
    check_largest_tree();
}

int main(void) {
    build();
    check("version: the header's and the archive's", geaidnosa_version() == GEAIDNOSA_VERSION_NUMBER);
    check_floats();
    check_directions();
    check_rays();
    check_sides();
    check_panels();
    check_counts();
    check_masks();
    uint64_t o = 0, a = 0;
    for (int i = 0; i < N; i++) o += marked(occupied, i), a += marked(active, i);
    check_sun(a);
    check_join(check_bake());
    check_lookups();
    check_file(o, a);
    check_solid();
    check_trees();
    printf("%d failed\n", failures);
    return failures != 0;
}
