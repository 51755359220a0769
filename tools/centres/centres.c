/* centres COUNT SEED: runs over every centre of COUNT axes of each family below, each accepted as a grid's, and counts the coordinates less a half that come out
 * whole. Each operation is one f32's, as in crates/grid and crates/lookup: edge = (max - min) / n, centre = (min + edge / 2) + i edge, g = (centre - min) / edge - 1/2.
 * A g that lies 1 or more from i ends it, and so does a clamped g that is whole and not i, bit for bit. "not i" counts those that are so before the clamp. */
#include <math.h>
#include <stdint.h>
#include <stdio.h>
#include <stdlib.h>
#include <string.h>

static uint64_t state;

static uint64_t drawn(void) {
    state ^= state << 13;
    state ^= state >> 7;
    state ^= state << 17;
    return state;
}

static double share(void) {
    return (double)(drawn() >> 11) / 9007199254740992.0;
}

/* x, or a few f32s to either side of it */
static float beside(float x) {
    for (int steps = (int)(drawn() % 9); steps > 4; steps--)
        x = nextafterf(x, INFINITY);
    for (int steps = (int)(drawn() % 9); steps > 4; steps--)
        x = nextafterf(x, -INFINITY);
    return x;
}

static uint32_t bits(float x) {
    uint32_t b;
    memcpy(&b, &x, 4);
    return b;
}

/* corners of an axis of n cells */
static void draw(int family, int n, float *low, float *high) {
    double small = ldexp(1.0, -10), edge = small * exp2(share() * 6);
    switch (family) {
    case 0: /* the smallest edges at the upper limit */
        *high = beside(4096);
        *low = beside((float)(4096 - n * small * (1 + share() / 8)));
        break;
    case 1: /* and at the lower limit */
        *low = beside(-4096);
        *high = beside((float)(-4096 + n * small * (1 + share() / 8)));
        break;
    case 2: /* small edges far from 0 */
        *low = (float)((drawn() % 2 ? 1 : -1) * (2048 + share() * 2040));
        *high = (float)(*low + n * edge);
        break;
    case 3: /* small edges anywhere */
        *low = (float)(share() * 8192 - 4096);
        *high = (float)(*low + n * edge);
        break;
    case 4: /* a corner near 0, of any size */
        *low = (float)((drawn() % 2 ? 1 : -1) * exp2(share() * 161 - 149));
        *high = (float)(*low + n * edge * exp2(share() * 10));
        break;
    case 5: /* the widest */
        *low = beside(-4096);
        *high = beside(4096);
        break;
    case 6: /* edges that are an f32 of few digits */
        *low = (float)((int)(drawn() % 8192) - 4096) + (float)(drawn() % 1024) / 1024;
        *high = *low + (float)n * (float)(1 + drawn() % 1024) / 1024;
        break;
    default: /* any */
        *low = (float)(share() * 8192 - 4096);
        *high = (float)(share() * 8192 - 4096);
    }
}

static const char *const families[] = {"upper limit", "lower limit", "far", "anywhere", "near 0", "widest", "few digits", "any"};

int main(int argc, char **argv) {
    if (argc != 3)
        return 2;
    long count = strtol(argv[1], 0, 10);
    state = strtoull(argv[2], 0, 10) * 2654435769u + 88172645463325252u;
    unsigned long all = 0, all_whole = 0;
    double all_off = 0;
    printf("%-12s %9s %11s %11s %11s %s\n", "family", "axes", "centres", "whole", "not i", "furthest from i");
    for (int family = 0; family < 8; family++) {
        unsigned long axes = 0, centres = 0, whole = 0, bare = 0;
        double off = 0;
        for (long k = 0; k < count; k++) {
            int n = k < 128 ? (int)k + 1 : k % 4 == 0 ? 128 : (int)(drawn() % 128) + 1;
            float low, high;
            draw(family, n, &low, &high);
            float edge = (high - low) / (float)n;
            if (!(fabsf(low) <= 4096 && fabsf(high) <= 4096 && edge >= 1.0f / 1024))
                continue;
            axes++;
            float half = edge * 0.5f, first = low + half, last = (float)(n - 1);
            for (int i = 0; i < n; i++) {
                float along = (float)i * edge, centre = first + along, apart = centre - low, coordinate = apart / edge, g = coordinate - 0.5f;
                double here = fabs((double)g - i);
                float raised = g > 0 ? g : 0, x = raised < last ? raised : last;
                centres++;
                off = here > off ? here : off;
                bare += g == floorf(g) && bits(g) != bits((float)i);
                if (!(here < 1) || (x == floorf(x) && bits(x) != bits((float)i))) {
                    printf("cell %d of %d from %a to %a: %a, clamped %a\n", i, n, low, high, g, x);
                    return 1;
                }
                whole += g == floorf(g);
            }
        }
        printf("%-12s %9lu %11lu %11lu %11lu %.9f\n", families[family], axes, centres, whole, bare, off);
        all += centres;
        all_whole += whole;
        all_off = off > all_off ? off : all_off;
    }
    printf("%lu centres, %lu whole, each of them its own cell's; furthest from i %.9f\n", all, all_whole, all_off);
    return 0;
}
