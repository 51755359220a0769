/* calls CASE TURNS: prepares a grid of SIDE voxels each way, 32 unless the compiler is told otherwise, and makes one of the calls TURNS times. With 0 turns all
 * is done as with 1 but for the call, so the difference of two counts is the call's own. calls CASE answer: makes it once and prints a sum of all that it
 * answers and writes, masks by their voxels. calls hold WHAT COUNT: holds so many masks (two a hall) or halls open, and prints how many bytes their lists
 * have and how many KiB the process had at most. tools/speed/calls builds and runs it, against any version of include/geaidnosa.h. */
#include <stdio.h>
#include <stdlib.h>
#include <string.h>

#include "geaidnosa.h"

#ifndef SIDE
#define SIDE 32
#endif

enum { N = SIDE * SIDE * SIDE, FEW = 4, MANY = 300, SKY = 1728, BYTES = 96 + 70 * N, BAKED = 48, TEN = 10, POSITIONS = 4096 };

#if GEAIDNOSA_VERSION_NUMBER < 2000
typedef uint8_t Mask;
enum { LENGTH = N };
static void mark(Mask *mask, size_t i) { mask[i] = 1; }
static int marked(const Mask *mask, size_t i) { return mask[i]; }
#else
typedef uint64_t Mask;
enum { LENGTH = (N + 63) / 64 };
static void mark(Mask *mask, size_t i) { mask[i / 64] |= (uint64_t)1 << (i % 64); }
static int marked(const Mask *mask, size_t i) { return (int)((mask[i / 64] >> (i % 64)) & 1); }
#endif

/* before 0.3.0 progress had no rays so far */
#if GEAIDNOSA_VERSION_NUMBER < 3000
typedef size_t Progress;
#define PROGRESS(next, rays) (next)
#define NEXT(progress) (progress)
#else
typedef GeaidnosaProgress Progress;
#define PROGRESS(next, rays) ((Progress){next, rays})
#define NEXT(progress) ((progress).next)
#endif

static const GeaidnosaAxes axes = {SIDE, SIDE, SIDE};
static const GeaidnosaCorners corners = {{0, 0, 0}, {16, 16, 16}};
static const GeaidnosaLight light = {{0.3f, 0.9f, 0.2f}, {3, 2.5f, 2}};
static const GeaidnosaAmbient ambient = {{0.2f, 0.25f, 0.3f}, {0.01f, 0.02f, 0.03f}, {0.05f, 0.05f, 0.05f}, {-0.01f, 0, 0.01f}};
/* a floor and a wall of plaster */
static const float walls[9 * FEW] = {
    0.1f, 0.1f, 0.1f, 15.9f, 0.1f, 0.1f, 15.9f, 0.1f, 15.9f, 0.1f, 0.1f, 0.1f, 15.9f, 0.1f, 15.9f, 0.1f, 0.1f, 15.9f,
    0.1f, 0.1f, 0.1f, 15.9f, 0.1f, 0.1f, 15.9f, 9.9f, 0.1f, 0.1f, 0.1f, 0.1f, 15.9f, 9.9f, 0.1f, 0.1f, 9.9f, 0.1f,
};
static const uint32_t uses[FEW] = {0};
static const uint8_t kinds[1] = {0};
static const float numbers[7] = {0.8f, 0.7f, 0.6f, 0, 0, 0, 0};
static float small[9 * FEW], large[9 * MANY], sky[SKY];
static Mask occupied[LENGTH], active[LENGTH], none[LENGTH], ten[LENGTH], few[LENGTH], all[LENGTH];
static float lights[N], lights_scratch[N], volume[16 * N], scratch[16 * N], distances[FEW];
static size_t places[FEW];
static float positions[3 * POSITIONS], frame[16 * POSITIONS];
static uint8_t file[BYTES];
static uint64_t answer[3];
static Progress begun, under_way, done;

/* numbers that look like chance and are the same in every run, from 0 to 1 */
static float chance(void) {
    static uint64_t seed = 1;
    seed = seed * 6364136223846793005u + 1442695040888963407u;
    return (float)(seed >> 40) / 16777216;
}

static void prepare(void) {
    for (int t = 0; t < FEW; t++) {
        float at[3] = {1 + 14 * chance(), 1 + 14 * chance(), 1 + 14 * chance()};
        for (int k = 0; k < 9; k++) small[9 * t + k] = at[k % 3] + 0.4f * chance();
    }
    for (int k = 0; k < 9 * MANY; k++) large[k] = 16 * chance();
    for (int i = 0; i < SKY; i++) sky[i] = 0.5f + (float)(i % 7) * 0.125f;
    for (int i = 0; i < N; i++) lights[i] = chance();
    for (int i = 0; i < 16 * N; i++) volume[i] = 4 * chance();
    for (int i = 0; i < N; i++) mark(all, i);
    for (int i = BAKED / 2; i < N; i += BAKED) mark(few, i);
    for (int i = 0; i < TEN; i++) mark(ten, (size_t)i * (N / TEN) + N / TEN / 2);
    for (int k = 0; k < 3 * POSITIONS; k++) positions[k] = 16 * chance();
    /* 64 rays for each voxel of few that is passed */
    under_way = PROGRESS(N / 2, 64 * ((N / 2 + BAKED / 2 - 1) / BAKED));
    done = PROGRESS(N, 64 * ((N + BAKED / 2 - 1) / BAKED));
    answer[0] = geaidnosa_write_volume(axes, corners, lights, N, volume, 16 * N, few, LENGTH, all, LENGTH, file, BYTES);
}

/* ---- the measured calls */

static void masks(const float *points, size_t triangles) {
    GeaidnosaMarked m = geaidnosa_masks(axes, corners, points, 9 * triangles, occupied, LENGTH, active, LENGTH);
    answer[0] = m.refusal, answer[1] = m.occupied, answer[2] = m.active;
}

static void sun(const Mask *mask) {
    GeaidnosaSunned s = geaidnosa_sun(axes, corners, walls, 9 * FEW, uses, FEW, kinds, 1, numbers, 7, light.direction, mask, LENGTH, lights, N, lights_scratch, N, distances, FEW,
                                      places, FEW);
    answer[0] = s.refusal, answer[1] = s.rays;
}

static void bake(const Mask *mask, Progress progress, uint64_t allowance) {
    GeaidnosaBakeAnswer b = geaidnosa_bake(axes, corners, walls, 9 * FEW, uses, FEW, kinds, 1, numbers, 7, light, ambient, sky, SKY, sky, 0, mask, LENGTH, lights, N, volume, 16 * N,
                                           scratch, 16 * N, distances, FEW, places, FEW, progress, allowance);
    answer[0] = b.refusal, answer[1] = NEXT(b.progress), answer[2] = b.rays;
}

static void masks_none(void) { masks(small, 0); }
static void masks_small(void) { masks(small, FEW); }
static void masks_large(void) { masks(large, MANY); }
static void sun_none(void) { sun(none); }
static void sun_few(void) { sun(few); }
static void sun_all(void) { sun(all); }
static void bake_none(void) { bake(none, begun, UINT64_MAX); }
static void bake_few(void) { bake(few, begun, UINT64_MAX); }
static void bake_first(void) { bake(few, begun, 384); }
static void bake_under_way(void) { bake(few, under_way, 384); }
static void bake_done(void) { bake(few, done, 384); }
static void bake_ten(void) { bake(ten, begun, UINT64_MAX); }
static void file_axes(void) { answer[0] = geaidnosa_file_axes(file, BYTES).refusal; }
static void light_blur(void) { answer[0] = geaidnosa_light_blur(axes, lights, N, lights_scratch, N); }
static void coefficient_blur(void) { answer[0] = geaidnosa_coefficient_blur(axes, volume, 16 * N, scratch, 16 * N); }
static void join_none(void) { answer[0] = geaidnosa_join(axes, none, LENGTH, scratch, 16 * N, volume, 16 * N); }
static void join_all(void) { answer[0] = geaidnosa_join(axes, all, LENGTH, scratch, 16 * N, volume, 16 * N); }
static void light_at(void) {
    GeaidnosaLightAt a = geaidnosa_light_at(axes, corners, lights, N, (GeaidnosaVec3){15.5f, 15.4f, 15.3f});
    answer[0] = a.refusal, frame[0] = a.light;
}
static void coefficients_at(void) {
    GeaidnosaCoefficientsAt a = geaidnosa_coefficients_at(axes, corners, volume, 16 * N, (GeaidnosaVec3){15.5f, 15.4f, 15.3f});
    answer[0] = a.refusal, memcpy(frame, a.numbers, sizeof a.numbers);
}
static void frame_lights(void) { answer[0] = geaidnosa_frame_lights(axes, corners, lights, N, positions, 3 * POSITIONS, frame, POSITIONS).refusal; }
static void frame_coefficients(void) { answer[0] = geaidnosa_frame_coefficients(axes, corners, volume, 16 * N, positions, 3 * POSITIONS, frame, 16 * POSITIONS).refusal; }
static void read_file(void) { answer[0] = geaidnosa_read_volume(file, BYTES, lights, N, volume, 16 * N, occupied, LENGTH, active, LENGTH).refusal; }
static void write_file(void) { answer[0] = geaidnosa_write_volume(axes, corners, lights, N, volume, 16 * N, few, LENGTH, all, LENGTH, file, BYTES); }

static const struct {
    const char *name;
    void (*call)(void);
} cases[] = {
    {"masks, no triangle", masks_none},
    {"masks, 4 small triangles", masks_small},
    {"masks, 300 large triangles", masks_large},
    {"sun, no voxel active", sun_none},
    {"sun, one in 48", sun_few},
    {"sun, all", sun_all},
    {"bake, no voxel active", bake_none},
    {"bake, one in 48", bake_few},
    {"the same, first call at 384 rays", bake_first},
    {"a call at 384 rays under way", bake_under_way},
    {"a call at its end", bake_done},
    {"bake, ten voxels active", bake_ten},
    {"light_blur", light_blur},
    {"coefficient_blur", coefficient_blur},
    {"join, no voxel", join_none},
    {"join, all", join_all},
    {"light_at", light_at},
    {"coefficients_at", coefficients_at},
    {"frame_lights, 4096 positions", frame_lights},
    {"frame_coefficients, 4096", frame_coefficients},
    {"file_axes", file_axes},
    {"read_volume", read_file},
    {"write_volume", write_file},
};

/* ---- sums and memory */

/* FNV-1a, a step */
static uint64_t sum_on(uint64_t h, const void *list, size_t bytes) {
    const unsigned char *p = list;
    for (size_t i = 0; i < bytes; i++) h = (h ^ p[i]) * 0x100000001b3u;
    return h;
}

static uint64_t sum_of_all(void) {
    uint64_t h = sum_on(0xcbf29ce484222325u, answer, sizeof answer);
    for (size_t i = 0; i < N; i++) {
        unsigned char both = (unsigned char)(marked(occupied, i) + 2 * marked(active, i));
        h = sum_on(h, &both, 1);
    }
    h = sum_on(sum_on(h, lights, sizeof lights), lights_scratch, sizeof lights_scratch);
    h = sum_on(sum_on(sum_on(h, volume, sizeof volume), scratch, sizeof scratch), file, sizeof file);
    return sum_on(h, frame, sizeof frame);
}

static void *held(size_t bytes) {
    void *list = malloc(bytes);
    if (!list) exit(1);
    return list;
}

static int hold(int halls, int count) {
    size_t a_hall = 2 * LENGTH * sizeof(Mask) + (halls ? 17 * N * sizeof(float) : 0);
    for (int i = 0; i < count; i++) {
        Mask *o = held(LENGTH * sizeof(Mask)), *a = held(LENGTH * sizeof(Mask));
        float *l = halls ? held(N * sizeof(float)) : lights, *v = halls ? held(16 * N * sizeof(float)) : volume;
        if (geaidnosa_read_volume(file, BYTES, l, N, v, 16 * N, o, LENGTH, a, LENGTH).refusal) return 1;
    }
    char line[256];
    long most = 0;
    FILE *status = fopen("/proc/self/status", "r");
    while (status && fgets(line, sizeof line, status)) sscanf(line, "VmHWM: %ld", &most);
    printf("%zu %ld\n", a_hall * (size_t)count, most);
    return 0;
}

int main(int argc, char **argv) {
    prepare();
    if (argc == 2 && !strcmp(argv[1], "names")) {
        for (size_t i = 0; i < sizeof cases / sizeof *cases; i++) puts(cases[i].name);
        return 0;
    }
    if (argc == 4 && !strcmp(argv[1], "hold")) return hold(!strcmp(argv[2], "halls"), atoi(argv[3]));
    for (size_t i = 0; argc == 3 && i < sizeof cases / sizeof *cases; i++) {
        if (strcmp(argv[1], cases[i].name)) continue;
        int turns = strcmp(argv[2], "answer") ? atoi(argv[2]) : 1;
        for (int k = 0; k < turns; k++) cases[i].call();
        if (!strcmp(argv[2], "answer")) printf("%016llx\n", (unsigned long long)sum_of_all());
        return answer[0] != 0;
    }
    fprintf(stderr, "calls: CASE TURNS, CASE answer, names, or hold WHAT COUNT\n");
    return 2;
}
