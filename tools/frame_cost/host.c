/* host WHAT SIDE COUNT TURNS: looks COUNT positions up in a hall of SIDE voxels along each axis and prints a hash of the answers. WHAT is "single light",
 * "frame light", "single coefficients" or "frame coefficients" as two words; with 0 TURNS nothing is looked up. */
#include "geaidnosa.h"
#include <stdio.h>
#include <stdlib.h>
#include <string.h>

static float *list(size_t count, float scale, unsigned seed) {
    float *l = malloc((count ? count : 1) * sizeof *l);
    for (size_t i = 0; i < count; i++) {
        seed = seed * 1664525u + 1013904223u;
        l[i] = (float)(seed >> 8 & 0xffff) / 65536.0f * scale;
    }
    return l;
}

int main(int argc, char **argv) {
    if (argc != 6)
        return 2;
    int frame = !strcmp(argv[1], "frame"), coefficients = !strcmp(argv[2], "coefficients");
    size_t side = strtoul(argv[3], 0, 10), count = strtoul(argv[4], 0, 10), turns = strtoul(argv[5], 0, 10);
    size_t each = coefficients ? 16 : 1, numbers = side * side * side * each;
    float *looked = list(numbers, 1.0f, 1), *positions = list(3 * count, (float)side, 2), *answers = list(each * count, 0.0f, 3);
    GeaidnosaAxes axes = {side, side, side};
    GeaidnosaCorners corners = {{0, 0, 0}, {(float)side, (float)side, (float)side}};
    uint32_t refused = 0, hash = 0;
    for (size_t t = 0; t < turns; t++) {
        if (frame) {
            refused |= (coefficients ? geaidnosa_frame_coefficients : geaidnosa_frame_lights)(
                           axes, corners, looked, numbers, positions, 3 * count, answers, each * count)
                           .refusal;
            continue;
        }
        for (size_t k = 0; k < count; k++) {
            GeaidnosaVec3 p = {positions[3 * k], positions[3 * k + 1], positions[3 * k + 2]};
            if (coefficients) {
                GeaidnosaCoefficientsAt r = geaidnosa_coefficients_at(axes, corners, looked, numbers, p);
                refused |= r.refusal;
                memcpy(answers + 16 * k, r.numbers, sizeof r.numbers);
            } else {
                GeaidnosaLightAt r = geaidnosa_light_at(axes, corners, looked, numbers, p);
                refused |= r.refusal;
                answers[k] = r.light;
            }
        }
    }
    for (size_t i = 0; i < each * count; i++) {
        uint32_t bits;
        memcpy(&bits, answers + i, sizeof bits);
        hash = hash * 31 + bits;
    }
    printf("%08x\n", hash);
    return refused != 0;
}
