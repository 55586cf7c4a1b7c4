/* A list of pairs and one step, from C: 216 atoms of argon on a shaken grid in a cubic cell. The pairs of 0 and its neighbour are excluded; the first room
 * for pairs is too short, and is made as long as refusal 8 tells. Prints floats as their bits; tools/list_and_step.rs prints the same by the Rust. */
#include <inttypes.h>
#include <stdio.h>
#include <stdlib.h>
#include <string.h>
#include "tyngyrlak.h"

enum { SIDE = 6, ATOMS = SIDE * SIDE * SIDE };

static void show(const char *what, double x)
{
    uint64_t bits;
    memcpy(&bits, &x, sizeof bits);
    printf("%-12s %016" PRIx64 "\n", what, bits);
}

static int refused(const char *call, tyn_done done)
{
    if (done.number == TYN_ANSWERED)
        return 0;
    printf("%s: refusal %" PRIu64 ", place %" PRIu64 "\n", call, done.number, done.place);
    return 1;
}

/* A fixed run of numbers from -0.5 to 0.5. */
static double shake(uint32_t *seed)
{
    *seed = *seed * 1664525u + 1013904223u;
    return (double)(*seed >> 8) / 16777216.0 - 0.5;
}

int main(void)
{
    const tyn_units units = {9.648533212331e-3, 8.617333262e-5, 14.3996454784936, 160.2176634};
    const double spacing = 3.8, edge = SIDE * 3.8;
    static double positions[3 * ATOMS], velocities[3 * ATOMS], forces[3 * ATOMS], references[3 * ATOMS], masses[ATOMS], charges[ATOMS];
    static uint32_t species[ATOMS], items[ATOMS], starts[1024], exclusions[8];
    uint32_t none = 0, seed = 1;
    double zero = 0.0;

    for (size_t i = 0; i < ATOMS; i++) {
        const size_t at[3] = {i / (SIDE * SIDE), i / SIDE % SIDE, i % SIDE};
        masses[i] = 39.948;
        for (size_t k = 0; k < 3; k++) {
            positions[3 * i + k] = spacing * ((double)at[k] + 0.5) + 0.4 * shake(&seed);
            velocities[3 * i + k] = 0.004 * shake(&seed);
        }
    }

    tyn_lattice_answer cube = tyn_cubic(edge);
    tyn_state_answer list = tyn_new(5.0, 0.6);
    tyn_whole excluded = tyn_exclude(0, 1, 0, exclusions, 8);
    if (refused("tyn_cubic", cube.done) || refused("tyn_new", list.done) || refused("tyn_exclude", excluded.done))
        return 1;
    const tyn_cell cell = {1, cube.lattice};
    const size_t rows = (size_t)excluded.value;

    /* any flag but 0 is yes */
    tyn_cell odd = cell;
    odd.lattice.py = 7;
    tyn_number radius = tyn_search_radius(list.state);
    tyn_image_answer image = tyn_min_image((tyn_vec3){edge, 0.75 * edge, 0.0}, cell);
    tyn_image_answer same = tyn_min_image((tyn_vec3){edge, 0.75 * edge, 0.0}, odd);
    show("radius", radius.value);
    show("image y", image.image.diff.y);
    show("flag 7: y", same.image.diff.y);

    size_t room = 2 * 64;
    uint32_t *pairs = calloc(room, sizeof *pairs);
    if (!pairs)
        return 1;
    tyn_updated built = tyn_build(list.state, cell, positions, 3 * ATOMS, exclusions, 2 * rows, pairs, room, references, 3 * ATOMS, starts, 1024, items, ATOMS);
    if (built.done.number == TYN_ROOM) {
        printf("64 rows are too few for %" PRIu64 " pairs\n", built.done.place);
        room = 2 * (size_t)built.done.place + 256;
        free(pairs);
        pairs = calloc(room, sizeof *pairs);
        if (!pairs)
            return 1;
        built = tyn_build(built.state, cell, positions, 3 * ATOMS, exclusions, 2 * rows, pairs, room, references, 3 * ATOMS, starts, 1024, items, ATOMS);
    }
    if (refused("tyn_build", built.done))
        return 1;
    printf("pairs %" PRIu32 ", checks %" PRIu32 ", fallback %" PRIu32 ", builds %" PRIu32 ", first %" PRIu32 " %" PRIu32 "\n", built.state.pairs,
        built.state.checks, built.state.fallback, built.state.builds, pairs[0], pairs[1]);

    const tyn_setting setting = {.lj = {1, {0.0103, 3.4, 5.0, 1, 1}}, .units = units, .cell = cell};
    const tyn_pace pace = {2.0, {1, 120.0, 100.0}};
    tyn_evaluated start = tyn_evaluate(setting, built.state, &none, 0, &zero, 0, &none, 0, &zero, 0, species, ATOMS, charges, ATOMS, &none, 0, &zero, 0, &zero, 0, &none, 0, &zero, 0, positions,
        3 * ATOMS, exclusions, 2 * rows, pairs, room, references, 3 * ATOMS, starts, 1024, items, ATOMS, forces, 3 * ATOMS);
    if (refused("tyn_evaluate", start.done))
        return 1;
    show("potential", start.sum.energy);
    show("virial xx", start.sum.xx);

    tyn_stepped next = tyn_step(setting, pace, start.state, start.sum.energy, &none, 0, &zero, 0, &none, 0, &zero, 0, species, ATOMS, charges, ATOMS, &none, 0, &zero, 0, &zero, 0, &none, 0, &zero, 0,
        masses, ATOMS, exclusions, 2 * rows, positions, 3 * ATOMS, velocities, 3 * ATOMS, pairs, room, references, 3 * ATOMS, starts, 1024, items, ATOMS,
        forces, 3 * ATOMS);
    if (refused("tyn_step", next.done))
        return 1;
    tyn_number kinetic = tyn_kinetic_energy(units, velocities, 3 * ATOMS, masses, ATOMS);
    tyn_number temperature = tyn_temperature(units, 3.0 * ATOMS, velocities, 3 * ATOMS, masses, ATOMS);
    printf("stopped %" PRIu32 ", rebuilt %" PRIu32 "\n", next.stopped, next.rebuilt);
    show("potential", next.potential);
    show("kinetic", kinetic.value);
    show("temperature", temperature.value);
    show("x of atom 0", positions[0]);
    show("force on 0", forces[0]);
    free(pairs);
    return 0;
}
