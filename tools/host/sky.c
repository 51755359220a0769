/* A hall under a sky from start to end: masks, sun, a sky filled by direction, a bake in parts, and how bright a face in the hall is.
 * Here y is up. tools/host/run builds and runs it and holds what it prints to sky.stdout. */
#include <stdio.h>
#include <stdlib.h>
#include <string.h>

#include "geaidnosa.h"

enum { W = 12, H = 8, D = 10, N = W * H * D, WORDS = (N + 63) / 64, T = 6, SKY = 1728 };

static const GeaidnosaAxes axes = {W, H, D};
static const GeaidnosaCorners corners = {{0, 0, 0}, {6, 4, 5}};
static const GeaidnosaLight sun = {{-0.9f, 0.5f, 0.2f}, {4, 3.8f, 3.5f}};
static const float points[9 * T] = {
    0.1f, 0.1f, 0.1f, 5.9f, 0.1f, 0.1f, 5.9f, 0.1f, 4.9f, 0.1f, 0.1f, 0.1f, 5.9f, 0.1f, 4.9f, 0.1f, 0.1f, 4.9f, /* the floor */
    0.1f, 0.1f, 0.1f, 5.9f, 0.1f, 0.1f, 5.9f, 3.9f, 0.1f, 0.1f, 0.1f, 0.1f, 5.9f, 3.9f, 0.1f, 0.1f, 3.9f, 0.1f, /* a wall behind, at z .1 */
    0.1f, 0.1f, 0.1f, 0.1f, 3.9f, 0.1f, 0.1f, 3.9f, 4.9f, 0.1f, 0.1f, 0.1f, 0.1f, 3.9f, 4.9f, 0.1f, 0.1f, 4.9f, /* a net beside, at x .1 */
};
static const uint32_t uses[T] = {0, 0, 1, 1, 2, 2};
static const uint8_t kinds[3] = {0, 0, 1};
static const float numbers[21] = {
    0.4f, 0.4f, 0.4f, 0, 0, 0, 0,    /* grey */
    0.8f, 0.3f, 0.2f, 0, 0, 0, 0,    /* red */
    0.5f, 0.5f, 0.5f, 0, 0, 0, 0.5f, /* half of the light passes */
};
static const float lamps[6] = {3, 2.5f, 2, 2, 2, 2};
static uint64_t occupied[WORDS], active[WORDS];
static float directions[SKY], sky[SKY], lights[N], lights_scratch[N], volume[16 * N], scratch[16 * N], first[16 * N], distances[T];
static size_t places[T];

static void good(const char *call, uint32_t refusal) {
    if (!refusal) return;
    printf("%s refuses %u\n", call, refusal);
    exit(1);
}

/* The sky's colour by the direction that it is seen along: bluer and brighter above. And ambient, its irradiance over the basis 1, y, z, x: the mean over
 * the 64 directions of set 0, which stand evenly around, each of a share 4π/64. */
static GeaidnosaAmbient fill_sky(void) {
    const float horizon[3] = {0.7f, 0.6f, 0.5f}, zenith[3] = {0.3f, 0.6f, 1.2f}, share = 4 * 3.14159265f / 64;
    const float constant = 3.14159265f * 0.282095f * 0.282095f * share, linear = 2 * 3.14159265f / 3 * 0.488603f * 0.488603f * share;
    float sums[4][3] = {{0}};
    good("directions", geaidnosa_directions(directions, SKY));
    for (int i = 0; i < SKY; i += 3) {
        const float *along = &directions[i], up = 0.5f + 0.5f * along[1];
        for (int c = 0; c < 3; c++) {
            sky[i + c] = horizon[c] * (1 - up) + zenith[c] * up;
            if (i >= 3 * 64) continue;
            sums[0][c] += sky[i + c] * constant;
            sums[1][c] += sky[i + c] * (linear * along[1]);
            sums[2][c] += sky[i + c] * (linear * along[2]);
            sums[3][c] += sky[i + c] * (linear * along[0]);
        }
    }
    GeaidnosaAmbient ambient;
    memcpy(&ambient, sums, sizeof ambient);
    return ambient;
}

/* The irradiance on a face with this unit normal, red, green and blue, without what comes straight from sun and lamp; and how much is seen of sun and sky. */
static void show(const char *what, GeaidnosaVec3 at, GeaidnosaVec3 n) {
    GeaidnosaCoefficientsAt c = geaidnosa_coefficients_at(axes, corners, volume, 16 * N, at);
    GeaidnosaLightAt l = geaidnosa_light_at(axes, corners, lights, N, at);
    good("coefficients_at", c.refusal);
    good("light_at", l.refusal);
    printf("%s:", what);
    for (int k = 0; k < 3; k++)
        printf(" %.3f", ((c.numbers[k] + c.numbers[4 + k] * n.y) + c.numbers[8 + k] * n.z) + c.numbers[12 + k] * n.x);
    printf(", of the sun %.3f, of the sky %.3f\n", l.light, c.numbers[7]);
}

int main(void) {
    printf("geaidnosa %s, the archive %u\n", GEAIDNOSA_VERSION, geaidnosa_version());
    GeaidnosaMarked marked = geaidnosa_masks(axes, corners, points, 9 * T, occupied, WORDS, active, WORDS);
    good("masks", marked.refusal);
    GeaidnosaSunned sunned = geaidnosa_sun(axes, corners, points, 9 * T, uses, T, kinds, 3, numbers, 21, sun.direction, active, WORDS, lights, N, lights_scratch, N,
                                           distances, T, places, T);
    good("sun", sunned.refusal);
    GeaidnosaAmbient ambient = fill_sky();
    printf("voxels %d, occupied %d, active %d\n", N, (int)marked.occupied, (int)marked.active);
    const uint64_t allowances[3] = {1000000, 5000, 384 + 64};
    for (int k = 0; k < 3; k++) {
        GeaidnosaProgress progress = {0, 0};
        int calls = 0;
        while (progress.next < N) {
            GeaidnosaBakeAnswer baked = geaidnosa_bake(axes, corners, points, 9 * T, uses, T, kinds, 3, numbers, 21, sun, ambient, sky, SKY, lamps, 6, active, WORDS, lights, N, volume,
                                   16 * N, scratch, 16 * N, distances, T, places, T, progress, allowances[k]);
            good("bake", baked.refusal);
            progress = baked.progress; /* and with the volume it is all that a stopped bake has to keep */
            calls++;
        }
        if (k == 0) memcpy(first, volume, sizeof first);
        printf("allowance %d: calls %d, rays %d, %s\n", (int)allowances[k], calls, (int)progress.rays, memcmp(first, volume, sizeof first) ? "ANOTHER VOLUME" : "the same volume");
    }
    const GeaidnosaVec3 middle = {3, 1.5f, 2.5f}, up = {0, 1, 0}, down = {0, -1, 0}, to_wall = {0, 0, -1};
    show("a face turned up", middle, up);
    show("a face turned down", middle, down);
    show("a face turned to the red wall", middle, to_wall);
    return 0;
}
