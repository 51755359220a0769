/* Geaidnosa 0.7.0: the public calls of the light bake, for C and C++ on x86-64. Link libgeaidnosa.a.
 *
 * A bake, call by call. geaidnosa_masks marks the voxels at and near surfaces; geaidnosa_sun finds how much of the sun each of them sees;
 * geaidnosa_directions gives the directions along which the caller fills the sky; geaidnosa_bake, called until its progress is at the voxel count, fills the
 * volume; geaidnosa_coefficients_at, geaidnosa_light_at and the frame calls read it; geaidnosa_write_volume and geaidnosa_read_volume store it and bring
 * it back. tools/host/sky.c is such a program in a page.
 *
 * What a volume holds. Voxel (x,y,z) stands x along the width, y along the height and z along the depth; a slice of a hall is the voxels of one z.
 * Each voxel has four coefficients, c0 to c3, of the irradiance there over the basis 1, y, z, x, in this order, and each is red, green, blue and a fourth
 * number. The irradiance on a surface with the unit normal n is ((c0 + c1·n.y) + c2·n.z) + c3·n.x, colour by colour; a matt surface of base colour b sends
 * b·irradiance/π back. The fourth numbers are: how much of the sun is seen, how much of the sky, 0 and 0. Colours are linear everywhere, never sRGB.
 * A finished volume is blurred, every number of it; a lookup blends eight cells, each cell's numbers standing at its lower corner.
 *   - In it: the sky where it is seen, and what surfaces send back of sun, sky and lamps and send out themselves. Not in it: what falls straight from the
 *     sun or from a lamp, so that an open voxel one metre below a lamp holds nothing of that lamp. A caller who wants it adds colour·((n·l)/d²) for each
 *     lamp, by what geaidnosa_transmittance answers of the way there, and the sun's colour·(n·l) by the light.
 *   - A light, as geaidnosa_sun fills it and geaidnosa_light_at reads it, is how much of the sun is seen, from 0 to 1, and no brightness. The sun's ray
 *     starts three voxel diagonals off the voxel's centre: what stands nearer than that casts no shadow on it.
 *   - Each coefficient that is baked is raised to 0, the last three too: where more light comes from −x than from +x, c3 is 0 and not negative, and so
 *     c1 with y and c2 with z. A face turned to −x, −y or −z then reads darker than it would in the mirrored hall.
 *   - Ambient is four coefficients of the same kind, the whole sky's irradiance. Inactive voxels hold it; a surface that is met gets it by the part of the
 *     sky that the surface sees; and a voxel that comes out darker than 0.005 of it is brought nearer to that.
 *   - A ray from a voxel ends at a translucent triangle as at an opaque one; rays to the sun, the sky and the lamps pass through it. At a panel's front
 *     all of them end; from behind all of them pass it as if it were not there.
 *
 * Directions. A direction is a unit vector outward from the voxel: a primary ray goes along it, and where that meets nothing the sky's light comes
 * from there. There are nine sets of 64, and voxel (x,y,z) looks along set ((x%3) + 3·(y%3) + (z%3))%9, as geaidnosa_set_of_voxel answers. Direction i of
 * set s is triple 64·s + i of what geaidnosa_directions writes, and triple 64·s + i of the sky is the colour that is seen along it: red, green and blue,
 * no matter which voxel looks. A hall of 3×3×3 voxels looks along all nine sets, so fill all 576 triples.
 *
 * Sides. A triangle's front is the side from which its corners p0, p1, p2 run counter-clockwise, and its back is the other one; two corners swapped swap
 * the sides. A ray meets the front where it runs against the cross product (p1−p0)×(p2−p0): exactly where det, which is (p1−p0)·(direction×(p2−p0)), is above
 * zero. A hit says which side was met; where det is next to zero there is no hit at all.
 *
 * Kinds. A triangle's material is of one of three, and no other number is taken:
 *   0  opaque: ends every ray, from both sides.
 *   1  translucent: lets its transmission of the light pass, from both sides, on the way to the sun, the sky and the lamps; ends a voxel's ray.
 *   2  panel: opaque from the front and absent from the back, for geaidnosa_nearest and geaidnosa_transmittance and so for sun, sky, lamps and bake. Its
 *      transmission is tested like any other and never read. A ray looks against the light: so a panel stops the light that comes from behind it, and what
 *      falls on its front goes on through it to what stands behind, while the front still sends back its base colour's part of it and its emissive. To turn a
 *      panel round swap two corners of each of its triangles; a second one back to back with it makes an opaque surface. Masks ask for no material: a panel
 *      occupies voxels whichever way it is turned.
 *
 * Solid walls. Where every material in the list is of kind 0, used or not, geaidnosa_solid_transmittance, geaidnosa_solid_sun and geaidnosa_solid_bake
 * do the work of the calls of those names without `solid_`, and take no hit scratch: a ray to the sun, the sky or a lamp ends at the first hit that is found.
 * Answer, rays, progress and every list come out bit for bit as by the other call, so that a bake may be begun by one of the two and gone on with by the other.
 *
 * Trees. A scene may come with a tree of boxes, whose sides lie along the axes, so that a ray looks only into boxes on its way: geaidnosa_tree_nearest,
 * geaidnosa_tree_transmittance, geaidnosa_tree_sun and geaidnosa_tree_bake do the work of the calls of those names without `tree_` through it. A tree is three lists:
 *   boxes   six numbers a box: its low corner x y z, then its high one. Box 0 is the root.
 *   nodes   three whole numbers a box: 0, and which two boxes are its halves; or, of a leaf, how many triangles stand in it, not 0, and where their run begins in
 *           the order (the third is not read).
 *   order   places of triangles in the scene's list, at most T of them; what stands there outside every leaf's run is not read.
 * geaidnosa_build_tree makes one. Any other is as good that is accepted, which it is exactly when the lists fit each other; each box but the first is a half of exactly
 * one box, once; halves stand behind their box in the list; every present triangle stands once, in a single leaf, and nothing else stands in one; each triangle's box,
 * padded by 1e-5, lies inside its leaf's and each box inside the one above it, where sides may touch; and no box has more than 24 above it. A triangle is present
 * unless the cross product (p1−p0)×(p2−p0) has a squared length of 1e-12 or less. Where none is, the empty tree, of no box, is accepted, and there alone.
 *   - Any accepted tree of a scene gives the same bits, rays counted too: which one it is says only how quick a call is. A bake that was begun through a tree goes on
 *     through a tree, the same one or another.
 *   - A triangle's own padded box is asked too: where the ray's origin lies above it on some axis and the direction is not negative there, or below it and the direction
 *     is not positive, the triangle is no hit. The call without a tree may find a hit there, by a rounding, off the triangle's own box; docs/DIFFERENCES.md says when.
 *     Where there is no such hit the two calls answer alike, bit for bit. A bake begun without a tree is not to be gone on with through one: nothing refuses that, and
 *     its volume may be of neither.
 *   - Each call tests its tree once, in time that grows with its boxes and triangles, as it tests the points: a host with many rays asks for them in one call, as
 *     geaidnosa_tree_sun and geaidnosa_tree_bake do, and a bake in calls of a large allowance. A call through a tree takes about half a megabyte of stack.
 *
 * Ownership. Every list is the caller's, lent for the one call as a pointer and a count of its elements (of a mask: words); no call keeps a pointer, allocates or frees.
 * A pointer is never null and is aligned for its type, also where the count is 0. No list that a call writes may overlap another list of that call.
 *
 * Threads. Calls have no state of their own: they may run side by side wherever no list that one of them writes is lent to another.
 *
 * Floats. Every call asks for the default float environment: round to nearest, ties to even, no flush-to-zero, no denormals-are-zero.
 *
 * Refusals. Each call tests its input itself and answers the first number that holds, in the order named with it, or 0. Where it refuses, every
 * other number of the answer is zero (but a bake's progress, both numbers of which come back as handed in), and no list is written.
 *
 *    1  an axis outside 1..128
 *    2  a corner not finite or beyond 4,096 in magnitude, or a voxel edge below 1/1024
 *    3  a lent list of the wrong length
 *    4  more than 4,096 triangles or 256 materials
 *    5  a triangle's point not finite or beyond 4,096 in magnitude
 *    6  a kind above 2 (in a solid call above 0), a material's colour not finite or beyond 65,536 in magnitude, a transmission outside 0..1, an index past the materials
 *    7  a light direction with a component beyond 4,096 or of squared length 1e-12 or less; a light, ambient or sky number not finite or beyond 65,536
 *    8  a ray's origin beyond 65,536, direction beyond 2, shortest distance outside 0..65,536, or longest distance NaN
 *    9  progress with next above the voxel count, or with rays below 64 or above 384 + 64·lamps for each active voxel below next
 *   10  an allowance below 384 + 64·lamps
 *   11  a position not finite or beyond 4,096, or a voxel index past the grid
 *   12  any fault in a volume file
 *   13  an unused bit of a mask set; a light not finite or beyond 2^64 in magnitude; a coefficient not finite or beyond 2^96
 *   14  more than 65,536 bytes
 *   16  a box tree that is not accepted
 *   19  more than eight lamps, a lamp's position not finite or beyond 4,096 in magnitude, or its colour not finite or beyond 65,536
 *
 * Lengths. N is the voxel count, width·height·depth; voxel (x,y,z) has the index x + width·(y + height·z). T is the triangle count.
 *   points      9·T: p0 x y z, p1 x y z, p2 x y z of each triangle       uses     T: the material of each triangle (this list gives T)
 *   kinds       one a material: 0 opaque, 1 translucent, 2 panel          numbers  7 a material: base RGB, emissive RGB, transmission
 *   occupied, active, share   (N+63)/64 words: voxel i is bit i%64 of word i/64, the lowest bit first; bits past the last voxel are 0. Voxel i is marked where
 *               (mask[i / 64] >> (i % 64)) & 1 is 1. Every call that takes both takes occupied first. In a volume file a mask has a byte a voxel.
 *   light (sun, blur, lookups, file), lights (bake), and a light's scratch   N
 *   volume, and its scratch   16·N: the four coefficients of each voxel, x y z w of each in turn; unblurred and joined are volumes
 *   sky, and the list of directions   1,728: three numbers of direction i of set s from 3·(64·s + i) on
 *   lamps       6 a lamp, none to eight: position x y z, colour RGB; any multiple of 6 is a length
 *   positions   three a position: x y z                                    answers  one a position for light, sixteen for coefficients
 *   boxes 6, nodes 3 a box, order   a tree, whose lengths are part of what is accepted: 16, and not 3. Of geaidnosa_build_tree room for one: at least 6·T, 3·T and T
 *   distances, places   hit scratch, each at least T; the solid calls take none
 * Hit scratch is open after a call that traced rays: the contents are no one's promise. Where a call refuses, or fires no ray, it is as it was.
 */
#ifndef GEAIDNOSA_H
#define GEAIDNOSA_H

#include <stddef.h>
#include <stdint.h>

#ifdef __cplusplus
extern "C" {
#endif

/* ---- the version: below 1.0 a new second number may change a call */

#define GEAIDNOSA_VERSION_MAJOR 0
#define GEAIDNOSA_VERSION_MINOR 7
#define GEAIDNOSA_VERSION_PATCH 0
#define GEAIDNOSA_VERSION "0.7.0"
#define GEAIDNOSA_VERSION_NUMBER 7000 /* major·1,000,000 + minor·1,000 + patch */

/* ---- the limit */

/* The most voxels along an axis. A grid has at most this number cubed, 2,097,152: its light is 8,388,608 bytes, its volume 134,217,728, its file 146,800,736.
 * A file of a larger axis is refused 12, also by a reader of an older version, whose limit was 32. */
#define GEAIDNOSA_AXIS_LIMIT 128

/* ---- what calls take */

typedef struct GeaidnosaVec3 {
    float x;
    float y;
    float z;
} GeaidnosaVec3;

/* How many voxels stand along each axis, 1 to GEAIDNOSA_AXIS_LIMIT. */
typedef struct GeaidnosaAxes {
    size_t width;
    size_t height;
    size_t depth;
} GeaidnosaAxes;

/* The box that the voxels fill. */
typedef struct GeaidnosaCorners {
    GeaidnosaVec3 min;
    GeaidnosaVec3 max;
} GeaidnosaCorners;

/* From origin along direction, between the distances shortest and longest, both counted in. */
typedef struct GeaidnosaRay {
    GeaidnosaVec3 origin;
    GeaidnosaVec3 direction;
    float shortest;
    float longest;
} GeaidnosaRay;

/* Its front is the side from which p0, p1, p2 run counter-clockwise. */
typedef struct GeaidnosaTriangle {
    GeaidnosaVec3 p0;
    GeaidnosaVec3 p1;
    GeaidnosaVec3 p2;
} GeaidnosaTriangle;

/* The sun: the direction towards it, components up to 4,096 and squared length above 1e-12 (it need not be a unit vector), and its colour. */
typedef struct GeaidnosaLight {
    GeaidnosaVec3 direction;
    GeaidnosaVec3 colour;
} GeaidnosaLight;

/* How far a bake is: the index of the next voxel, which is the voxel count when the bake is done, and the rays fired so far, by all calls since {0, 0}. */
typedef struct GeaidnosaProgress {
    size_t next;
    uint64_t rays;
} GeaidnosaProgress;

/* Four coefficients over the basis 1, y, z, x, each a colour: the irradiance of the whole sky. */
typedef struct GeaidnosaAmbient {
    GeaidnosaVec3 c0;
    GeaidnosaVec3 c1;
    GeaidnosaVec3 c2;
    GeaidnosaVec3 c3;
} GeaidnosaAmbient;

/* ---- what calls answer */

/* hit is 1 for a hit, else 0; then place, t, u, v and front are 0 too. A hit may stand at place 0 and distance 0: ask hit. front is 1 where the triangle's
 * front was met, 0 where its back was. */
typedef struct GeaidnosaRayHit {
    uint32_t refusal;
    uint32_t hit;
    size_t place;
    float t;
    float u;
    float v;
    uint32_t front;
} GeaidnosaRayHit;

typedef struct GeaidnosaTransmitted {
    uint32_t refusal;
    float transmittance;
} GeaidnosaTransmitted;

/* How many voxels are occupied, and how many active. */
typedef struct GeaidnosaMarked {
    uint32_t refusal;
    uint64_t occupied;
    uint64_t active;
} GeaidnosaMarked;

/* How many boxes a tree has, and how many places its order. */
typedef struct GeaidnosaTreeBuilt {
    uint32_t refusal;
    size_t boxes;
    size_t places;
} GeaidnosaTreeBuilt;

typedef struct GeaidnosaSunned {
    uint32_t refusal;
    uint64_t rays;
} GeaidnosaSunned;

/* progress is what the next call is handed; rays is what this call fired. */
typedef struct GeaidnosaBakeAnswer {
    uint32_t refusal;
    GeaidnosaProgress progress;
    uint64_t rays;
} GeaidnosaBakeAnswer;

typedef struct GeaidnosaLightAt {
    uint32_t refusal;
    float light;
} GeaidnosaLightAt;

typedef struct GeaidnosaCoefficientsAt {
    uint32_t refusal;
    float numbers[16];
} GeaidnosaCoefficientsAt;

typedef struct GeaidnosaPartStart {
    uint32_t refusal;
    size_t start;
} GeaidnosaPartStart;

/* The place of the position that is refused first, counted from 0; 0 too where no position causes the refusal (1, 2 and 3). */
typedef struct GeaidnosaFirstRefusal {
    uint32_t refusal;
    size_t place;
} GeaidnosaFirstRefusal;

typedef struct GeaidnosaHead {
    uint32_t refusal;
    GeaidnosaAxes axes;
    GeaidnosaCorners corners;
} GeaidnosaHead;

typedef struct GeaidnosaNeeded {
    uint32_t refusal;
    size_t bytes;
} GeaidnosaNeeded;

typedef struct GeaidnosaFigures {
    uint32_t refusal;
    size_t width;
    size_t height;
    size_t depth;
    uint64_t occupied;
    uint64_t active;
    uint64_t zeros;
} GeaidnosaFigures;

/* ---- the version, and the directions */

/* The archive's version: GEAIDNOSA_VERSION_NUMBER where header and archive are of one version. Refuses nothing. */
uint32_t geaidnosa_version(void);

/* Writes the directions, x, y and z of each, over a list of 1,728 numbers. Refuses 3. */
uint32_t geaidnosa_directions(float *out, size_t out_length);

/* Which of the nine sets of directions a voxel uses, 0 to 8. Refuses nothing. */
size_t geaidnosa_set_of_voxel(size_t x, size_t y, size_t z);

/* ---- rays */

/* Where a ray meets one triangle, and on which side; it has no material here, so both are met. place is 0. Refuses 5, 8. */
GeaidnosaRayHit geaidnosa_meet(GeaidnosaRay ray, GeaidnosaTriangle triangle);

/* The nearest hit among all triangles, and among equal distances the one of the highest place; a panel met from behind is no hit. Refuses 3, 4, 5, 6, 8. */
GeaidnosaRayHit geaidnosa_nearest(
    const float *points, size_t points_length,
    const uint32_t *uses, size_t uses_length,
    const uint8_t *kinds, size_t kinds_length,
    const float *numbers, size_t numbers_length,
    GeaidnosaRay ray);

/* How much light passes along a ray, from 1 down to 0: nothing past an opaque triangle or a panel's front, everything past a panel's back. Writes hit scratch
 * alone. Refuses 3, 4, 5, 6, 8. */
GeaidnosaTransmitted geaidnosa_transmittance(
    const float *points, size_t points_length,
    const uint32_t *uses, size_t uses_length,
    const uint8_t *kinds, size_t kinds_length,
    const float *numbers, size_t numbers_length,
    GeaidnosaRay ray,
    float *distances, size_t distances_length,
    size_t *places, size_t places_length);

/* The same where every material is of kind 0, without hit scratch: 0 where the ray meets a triangle, else 1. Writes nothing. Refuses 3, 4, 5, 6 (any other kind too), 8. */
GeaidnosaTransmitted geaidnosa_solid_transmittance(
    const float *points, size_t points_length,
    const uint32_t *uses, size_t uses_length,
    const uint8_t *kinds, size_t kinds_length,
    const float *numbers, size_t numbers_length,
    GeaidnosaRay ray);

/* ---- a scene's box tree */

/* Builds a scene's tree at the front of three lists that have room for it: boxes of at least 6·T numbers, nodes of 3·T, order of T. Of an answer of b boxes and p places
 * the tree is the first 6·b, 3·b and p of them, and those counts are the lengths to lend it with; what stands behind stays. It is accepted for every scene of these
 * points that is not refused before. A run of triangles is halved at the median along its widest axis until four or fewer remain. Here the points give T: a count that
 * is no multiple of nine is refused 3. Refuses 3, 4, 5. */
GeaidnosaTreeBuilt geaidnosa_build_tree(
    const float *points, size_t points_length,
    float *boxes, size_t boxes_length,
    uint32_t *nodes, size_t nodes_length,
    uint32_t *order, size_t order_length);

/* The nearest hit through a tree: among the triangles whose own padded box is not passed over. Refuses 3, 4, 5, 6, 16, 8. */
GeaidnosaRayHit geaidnosa_tree_nearest(
    const float *points, size_t points_length,
    const uint32_t *uses, size_t uses_length,
    const uint8_t *kinds, size_t kinds_length,
    const float *numbers, size_t numbers_length,
    const float *boxes, size_t boxes_length,
    const uint32_t *nodes, size_t nodes_length,
    const uint32_t *order, size_t order_length,
    GeaidnosaRay ray);

/* How much light passes along a ray, through a tree. Writes hit scratch alone. Refuses 3, 4, 5, 6, 16, 8. */
GeaidnosaTransmitted geaidnosa_tree_transmittance(
    const float *points, size_t points_length,
    const uint32_t *uses, size_t uses_length,
    const uint8_t *kinds, size_t kinds_length,
    const float *numbers, size_t numbers_length,
    const float *boxes, size_t boxes_length,
    const uint32_t *nodes, size_t nodes_length,
    const uint32_t *order, size_t order_length,
    GeaidnosaRay ray,
    float *distances, size_t distances_length,
    size_t *places, size_t places_length);

/* ---- masks, blurs and the sun */

/* Fills both masks whatever stood there: occupied where a triangle's sample lies in the voxel, whatever its material and side, active within two voxels of
 * that on every axis. Here the points give T: a count that is no multiple of nine is refused 3. Refuses 1, 2, 3, 4, 5. */
GeaidnosaMarked geaidnosa_masks(
    GeaidnosaAxes axes,
    GeaidnosaCorners corners,
    const float *points, size_t points_length,
    uint64_t *occupied, size_t occupied_length,
    uint64_t *active, size_t active_length);

/* Scratch gets the light as it was, and the light the square of its 3×3×3 mean. Refuses 1, 3, 13. */
uint32_t geaidnosa_light_blur(
    GeaidnosaAxes axes,
    float *light, size_t light_length,
    float *scratch, size_t scratch_length);

/* Scratch gets the volume as it was, and the volume its 3×3×3 mean. Refuses 1, 3, 13. */
uint32_t geaidnosa_coefficient_blur(
    GeaidnosaAxes axes,
    float *volume, size_t volume_length,
    float *scratch, size_t scratch_length);

/* Fills the light with what each voxel sees of the sun, blurred, and scratch with the same before the blur; where no voxel is active the light is all
 * 1.0 and scratch stays as it was. The direction is that towards the sun, as in GeaidnosaLight. Fires one ray for each active voxel.
 * Refuses 1, 2, 3, 4, 5, 6, 7, 13. */
GeaidnosaSunned geaidnosa_sun(
    GeaidnosaAxes axes,
    GeaidnosaCorners corners,
    const float *points, size_t points_length,
    const uint32_t *uses, size_t uses_length,
    const uint8_t *kinds, size_t kinds_length,
    const float *numbers, size_t numbers_length,
    GeaidnosaVec3 direction,
    const uint64_t *active, size_t active_length,
    float *light, size_t light_length,
    float *scratch, size_t scratch_length,
    float *distances, size_t distances_length,
    size_t *places, size_t places_length);

/* The same where every material is of kind 0, without hit scratch: light, scratch and rays are those of geaidnosa_sun.
 * Refuses 1, 2, 3, 4, 5, 6 (any other kind too), 7, 13. */
GeaidnosaSunned geaidnosa_solid_sun(
    GeaidnosaAxes axes,
    GeaidnosaCorners corners,
    const float *points, size_t points_length,
    const uint32_t *uses, size_t uses_length,
    const uint8_t *kinds, size_t kinds_length,
    const float *numbers, size_t numbers_length,
    GeaidnosaVec3 direction,
    const uint64_t *active, size_t active_length,
    float *light, size_t light_length,
    float *scratch, size_t scratch_length);

/* What geaidnosa_sun does, through a tree, with hit scratch. Refuses 1, 2, 3, 4, 5, 6, 7, 16, 13. */
GeaidnosaSunned geaidnosa_tree_sun(
    GeaidnosaAxes axes,
    GeaidnosaCorners corners,
    const float *points, size_t points_length,
    const uint32_t *uses, size_t uses_length,
    const uint8_t *kinds, size_t kinds_length,
    const float *numbers, size_t numbers_length,
    const float *boxes, size_t boxes_length,
    const uint32_t *nodes, size_t nodes_length,
    const uint32_t *order, size_t order_length,
    GeaidnosaVec3 direction,
    const uint64_t *active, size_t active_length,
    float *light, size_t light_length,
    float *scratch, size_t scratch_length,
    float *distances, size_t distances_length,
    size_t *places, size_t places_length);

/* ---- the bake */

/* Bakes the volume from progress on: an active voxel is taken while at least 384 + 64·lamps rays of the allowance remain. Begin at {0, 0}, and call again
 * with the progress answered and the same lists until its next is the voxel count. Its rays are then those of all calls together, also where the bake was
 * stopped and gone on with elsewhere: keep progress and volume, and hand both on. A progress whose rays lie outside what the active voxels below next may
 * cost, as row 9 says, is refused and not repaired; inside that its rays are taken as they are. `light` is the sun, its direction and colour; `lights` is
 * the list that geaidnosa_sun filled. At next 0 the volume's contents do not matter; scratch's never do. The last call leaves the volume before its 3×3×3
 * mean in scratch and the mean in the volume; the others do not touch scratch, and where no voxel is active no call writes it.
 * Refuses 1, 2, 3, 4, 5, 6, 7, 19, 9, 10, 13. */
GeaidnosaBakeAnswer geaidnosa_bake(
    GeaidnosaAxes axes,
    GeaidnosaCorners corners,
    const float *points, size_t points_length,
    const uint32_t *uses, size_t uses_length,
    const uint8_t *kinds, size_t kinds_length,
    const float *numbers, size_t numbers_length,
    GeaidnosaLight light,
    GeaidnosaAmbient ambient,
    const float *sky, size_t sky_length,
    const float *lamps, size_t lamps_length,
    const uint64_t *active, size_t active_length,
    const float *lights, size_t lights_length,
    float *volume, size_t volume_length,
    float *scratch, size_t scratch_length,
    float *distances, size_t distances_length,
    size_t *places, size_t places_length,
    GeaidnosaProgress progress,
    uint64_t allowance);

/* The same where every material is of kind 0, without hit scratch: volume, scratch, progress and rays are those of geaidnosa_bake, call for call. A progress
 * that either has answered is good for both. Refuses 1, 2, 3, 4, 5, 6 (any other kind too), 7, 19, 9, 10, 13. */
GeaidnosaBakeAnswer geaidnosa_solid_bake(
    GeaidnosaAxes axes,
    GeaidnosaCorners corners,
    const float *points, size_t points_length,
    const uint32_t *uses, size_t uses_length,
    const uint8_t *kinds, size_t kinds_length,
    const float *numbers, size_t numbers_length,
    GeaidnosaLight light,
    GeaidnosaAmbient ambient,
    const float *sky, size_t sky_length,
    const float *lamps, size_t lamps_length,
    const uint64_t *active, size_t active_length,
    const float *lights, size_t lights_length,
    float *volume, size_t volume_length,
    float *scratch, size_t scratch_length,
    GeaidnosaProgress progress,
    uint64_t allowance);

/* What geaidnosa_bake does, through a tree, with hit scratch: the lights are those of geaidnosa_tree_sun. Each call is handed a tree of the same scene.
 * Refuses 1, 2, 3, 4, 5, 6, 7, 19, 16, 9, 10, 13. */
GeaidnosaBakeAnswer geaidnosa_tree_bake(
    GeaidnosaAxes axes,
    GeaidnosaCorners corners,
    const float *points, size_t points_length,
    const uint32_t *uses, size_t uses_length,
    const uint8_t *kinds, size_t kinds_length,
    const float *numbers, size_t numbers_length,
    const float *boxes, size_t boxes_length,
    const uint32_t *nodes, size_t nodes_length,
    const uint32_t *order, size_t order_length,
    GeaidnosaLight light,
    GeaidnosaAmbient ambient,
    const float *sky, size_t sky_length,
    const float *lamps, size_t lamps_length,
    const uint64_t *active, size_t active_length,
    const float *lights, size_t lights_length,
    float *volume, size_t volume_length,
    float *scratch, size_t scratch_length,
    float *distances, size_t distances_length,
    size_t *places, size_t places_length,
    GeaidnosaProgress progress,
    uint64_t allowance);

/* Copies the sixteen numbers of each voxel of the share's mask from unblurred to joined, and leaves the other voxels of joined as they are. So a bake is
 * spread over threads or machines: masks of which each active voxel stands in exactly one, and no other voxel in any, are baked to the end, each with
 * lists of its own and all else alike, the lights of the whole mask's sun pass too. A share's unblurred volume is its scratch, or its volume where its
 * mask has no voxel. The other shares are joined one after another onto the first one's, and then geaidnosa_coefficient_blur takes the mean, unless no
 * voxel at all is active: bit for bit the volume of the unbroken bake, and the rays add up. What joined holds is not tested. Refuses 1, 3, 13. */
uint32_t geaidnosa_join(
    GeaidnosaAxes axes,
    const uint64_t *share, size_t share_length,
    const float *unblurred, size_t unblurred_length,
    float *joined, size_t joined_length);

/* ---- lookups */

/* The light at a position. Refuses 1, 2, 3, 11, and 13 among the eight cells read. */
GeaidnosaLightAt geaidnosa_light_at(
    GeaidnosaAxes axes,
    GeaidnosaCorners corners,
    const float *light, size_t light_length,
    GeaidnosaVec3 position);

/* The four coefficients at a position. Refuses 1, 2, 3, 11, and 13 among the eight cells read. */
GeaidnosaCoefficientsAt geaidnosa_coefficients_at(
    GeaidnosaAxes axes,
    GeaidnosaCorners corners,
    const float *volume, size_t volume_length,
    GeaidnosaVec3 position);

/* Where one voxel's sixteen numbers start, 16·index, in the volume or, where unblurred is not 0, in scratch, which holds it unblurred: the caller reads
 * them there, no copy is made. Refuses 1, 3 (either list), 11. */
GeaidnosaPartStart geaidnosa_voxel_part(
    GeaidnosaAxes axes,
    const float *volume, size_t volume_length,
    const float *scratch, size_t scratch_length,
    size_t index,
    uint8_t unblurred);

/* The refusal of that call on the same arguments: 1, 3, 11 or 0. */
uint32_t geaidnosa_voxel_refusal(
    GeaidnosaAxes axes,
    const float *volume, size_t volume_length,
    const float *scratch, size_t scratch_length,
    size_t index,
    uint8_t unblurred);

/* The light at each of a list of positions, x y z of each, in answers, one number a position: each the number that geaidnosa_light_at gives there, with
 * the grid tested once. Refuses 1, 2, 3, and the first of what that call refuses at a position (11, 13), with its place. */
GeaidnosaFirstRefusal geaidnosa_frame_lights(
    GeaidnosaAxes axes,
    GeaidnosaCorners corners,
    const float *light, size_t light_length,
    const float *positions, size_t positions_length,
    float *answers, size_t answers_length);

/* The four coefficients at each of a list of positions, x y z of each, in answers, sixteen numbers a position: those that geaidnosa_coefficients_at gives
 * there. Refuses 1, 2, 3, and the first of what that call refuses at a position (11, 13), with its place. */
GeaidnosaFirstRefusal geaidnosa_frame_coefficients(
    GeaidnosaAxes axes,
    GeaidnosaCorners corners,
    const float *volume, size_t volume_length,
    const float *positions, size_t positions_length,
    float *answers, size_t answers_length);

/* ---- the volume file */

/* A file's axes and corners, from which its lists' lengths follow. Refuses 12. */
GeaidnosaHead geaidnosa_file_axes(const uint8_t *bytes, size_t bytes_length);

/* How many bytes a file of these axes has: 96 + 70·N. Refuses 1. */
GeaidnosaNeeded geaidnosa_volume_bytes(GeaidnosaAxes axes);

/* Reads a file into the four lists and answers its axes and corners; foreign bodies are skipped. Refuses 12, then 3. */
GeaidnosaHead geaidnosa_read_volume(
    const uint8_t *bytes, size_t bytes_length,
    float *light, size_t light_length,
    float *volume, size_t volume_length,
    uint64_t *occupied, size_t occupied_length,
    uint64_t *active, size_t active_length);

/* Writes a file over bytes, which has exactly as many as geaidnosa_volume_bytes answers. Refuses 1, 2, 3, 13. */
uint32_t geaidnosa_write_volume(
    GeaidnosaAxes axes,
    GeaidnosaCorners corners,
    const float *light, size_t light_length,
    const float *volume, size_t volume_length,
    const uint64_t *occupied, size_t occupied_length,
    const uint64_t *active, size_t active_length,
    uint8_t *bytes, size_t bytes_length);

/* What volstat prints of a file: axes, occupied and active counts, and how many lights are zero. Refuses 14, then 12. */
GeaidnosaFigures geaidnosa_file_figures(const uint8_t *bytes, size_t bytes_length);

/* ---- the float functions, on the bit patterns of f32; none refuses anything, and whatever is NaN answers 0x7FC00000 */

/* The square root, rounded to the nearest; of a number below 0 (but −0) NaN. */
uint32_t geaidnosa_root_bits(uint32_t bits);

/* The largest whole number not above. */
uint32_t geaidnosa_floor_bits(uint32_t bits);

/* The least whole number not below. */
uint32_t geaidnosa_ceiling_bits(uint32_t bits);

/* The number without its sign. */
uint32_t geaidnosa_magnitude_bits(uint32_t bits);

/* The larger of two; of two equals the second, so that −0 and +0 give +0. NaN if either is. */
uint32_t geaidnosa_larger_bits(uint32_t first, uint32_t second);

/* The smaller of two; of two equals the second. NaN if either is. */
uint32_t geaidnosa_smaller_bits(uint32_t first, uint32_t second);

#ifdef __cplusplus
}
#endif

#endif
