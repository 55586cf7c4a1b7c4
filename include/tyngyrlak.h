/* Tyngyrlak for C: pair lists, Lennard-Jones, Coulomb, bonds, angles, Verlet with Berendsen. Made by tools/header.py from the library's sources; do not edit.
 *
 * Answers. Every answer has a `done`: number 0 and place 0 where the call is answered, else a refusal's number (tyn_refusal) and its place, which is 0
 * unless the number names one. The other values are zeros where the call is refused, but for a list's state and a step's potential, which come back in every case.
 *
 * Flags are read as C does: 0 is no, any other number is yes. A flag that is handed back is 0 or 1.
 *
 * Memory. A table or a room is a pointer and the number of its elements. The caller sees to it that each pointer
 *   - is not NULL, also where the number is 0, and is aligned for its elements;
 *   - points to so many elements, in one object, that can be read, and written unless the pointer is to const, while the call runs;
 *   - is of elements that hold values (rooms too: clear them once), which no other thread writes, or reads where the call writes, while the call runs;
 *   - if it is not to const, shares no element with any other pointer of the call.
 * The library keeps no pointer, takes no memory of its own but the stack (half a megabyte in tyn_evaluate, tyn_step and tyn_finish) and asks memcpy
 * and memset of the C library, nothing else.
 *
 * Three floats an atom (x, y, z), two numbers a pair, bond or exclusion, three an angle. At most 16384 atoms. docs/DECISIONS.md and the scope paper have the ranges. */
#ifndef TYNGYRLAK_H
#define TYNGYRLAK_H

#include <stddef.h>
#include <stdint.h>

#ifdef __cplusplus
extern "C" {
#endif

/* The refusals. */
enum tyn_refusal {
    TYN_ANSWERED = 0,
    /* lent lengths disagree, or a room is too short for the atoms */
    TYN_LENGTHS = 1,
    /* too many atoms */
    TYN_TOO_MANY = 2,
    /* a number out of range; place 1: a drifted coordinate */
    TYN_RANGE = 3,
    /* a pair or a bond names an atom that is not there */
    TYN_NOT_THERE = 4,
    /* a table is not strictly ascending, or an exclusion not low before high; place 1: the house's species */
    TYN_ORDER = 5,
    /* the list state claims more than the lent room */
    TYN_CLAIMS = 6,
    /* the grid needs too many cells */
    TYN_CELLS = 7,
    /* the pairs, or the exclusions, do not fit */
    TYN_ROOM = 8,
    /* a sheet line is malformed */
    TYN_MALFORMED = 9,
    /* a second header, or an atom number again */
    TYN_AGAIN = 10,
    /* an atom is absent, or at the place NO_HEADER the header; one case, so that number and place tell the case */
    TYN_ABSENT = 11,
    /* a sheet can't go back to the first form: its rule is 2 (place 0xffffffff), or a species is not 0 (place: the lowest such atom) */
    TYN_TYPED = 12,
    /* a total would pass 2^64 - 1: the list is there, the totals are as they came */
    TYN_FULL = 13
};

/* Answered (number 0, place 0), or a refusal's number and place. */
typedef struct {
    uint64_t number;
    uint64_t place;
} tyn_done;

typedef struct {
    double x;
    double y;
    double z;
} tyn_vec3;

/* The three lattice vectors, and which axes are periodic (flags). */
typedef struct {
    tyn_vec3 a;
    tyn_vec3 b;
    tyn_vec3 c;
    uint32_t px;
    uint32_t py;
    uint32_t pz;
} tyn_lattice;

typedef struct {
    tyn_done done;
    tyn_lattice lattice;
} tyn_lattice_answer;

/* A flag. */
typedef struct {
    tyn_done done;
    uint32_t value;
} tyn_yes_no;

/* Three rows of three floats. */
typedef struct {
    double x[3];
    double y[3];
    double z[3];
} tyn_rows;

/* Three rows of three floats. */
typedef struct {
    tyn_done done;
    tyn_rows rows;
} tyn_rows_answer;

/* A float. */
typedef struct {
    tyn_done done;
    double value;
} tyn_number;

/* Whether there is an inverse (a flag), and its rows. */
typedef struct {
    tyn_done done;
    uint32_t found;
    tyn_rows rows;
} tyn_inverse_answer;

/* Three floats. */
typedef struct {
    tyn_done done;
    tyn_vec3 value;
} tyn_vector;

/* No cell (present 0), or a lattice (present not 0). */
typedef struct {
    uint32_t present;
    tyn_lattice lattice;
} tyn_cell;

/* The minimum image, and how many boxes it took off on each axis where kind is 0; kind 1: a count that is no int32_t, 2: no inverse, and zeros then. */
typedef struct {
    tyn_vec3 diff;
    uint32_t kind;
    int32_t x;
    int32_t y;
    int32_t z;
} tyn_image;

typedef struct {
    tyn_done done;
    tyn_image image;
} tyn_image_answer;

/* Energy, and the virial row by row. (The Rust's Contribution; its forces are a lent slice, three floats an atom.) */
typedef struct {
    double energy;
    double xx;
    double xy;
    double xz;
    double yx;
    double yy;
    double yz;
    double zx;
    double zy;
    double zz;
} tyn_sum;

/* Energy and virial; the forces stand in what was lent. */
typedef struct {
    tyn_done done;
    tyn_sum sum;
} tyn_summed;

/* The unit constants, which the caller supplies. */
typedef struct {
    double force_to_accel;
    double kb_ev_per_k;
    double ke_coulomb;
    double ev_per_a3_to_gpa;
} tyn_units;

/* The settings of a pair list and what it claims of the lent memory; fallback is a flag. built_in is the cell of its last answered build, not present
 * where there is none. What a call hands back goes into the next one. */
typedef struct {
    double cutoff;
    double skin;
    uint32_t pairs;
    uint32_t references;
    uint32_t checks;
    uint32_t fallback;
    uint32_t builds;
    tyn_cell built_in;
} tyn_state;

/* A new list's state. */
typedef struct {
    tyn_done done;
    tyn_state state;
} tyn_state_answer;

/* A whole number. */
typedef struct {
    tyn_done done;
    uint64_t value;
} tyn_whole;

/* Whether the list was built anew (a flag), and its state, which comes back in every case. */
typedef struct {
    tyn_done done;
    uint32_t rebuilt;
    tyn_state state;
} tyn_updated;

/* A part of a lent table, by its first element and its length; 0 and 0 where the call is refused. */
typedef struct {
    tyn_done done;
    size_t start;
    size_t length;
} tyn_part;

/* A whole-number frame: its edges, which axes are periodic (flags), and the radius, at most half of each periodic edge. */
typedef struct {
    uint32_t ex;
    uint32_t ey;
    uint32_t ez;
    uint32_t px;
    uint32_t py;
    uint32_t pz;
    uint32_t radius;
} tyn_frame;

/* An atom's coordinates. */
typedef struct {
    uint32_t x;
    uint32_t y;
    uint32_t z;
} tyn_spot;

/* The pairs stored, the distances evaluated, and whether no grid was laid (a flag). */
typedef struct {
    tyn_done done;
    uint32_t pairs;
    uint32_t checks;
    uint32_t fallback;
} tyn_built;

/* What a job sheet says beside its coordinates and exclusions; px, py, pz are flags. */
typedef struct {
    uint32_t atoms;
    uint32_t ex;
    uint32_t ey;
    uint32_t ez;
    uint32_t px;
    uint32_t py;
    uint32_t pz;
    uint32_t radius;
    uint32_t count;
} tyn_job;

typedef struct {
    tyn_done done;
    tyn_job job;
} tyn_sheet;

/* What a job sheet of either form says; form is that of its header, 1 or 2, rule its mixing rule, 1 or 2. */
typedef struct {
    tyn_done done;
    tyn_job job;
    uint32_t form;
    uint32_t rule;
} tyn_formed;

/* A species' row: the table that it is a part of (0 none, 1 a desk's own, 2 the house's), its epsilon and its sigma; zeros where there is none. */
typedef struct {
    tyn_done done;
    uint32_t table;
    double epsilon;
    double sigma;
} tyn_row;

/* Lennard-Jones numbers; epsilon and sigma are those of a species that the table lacks, shift is a flag, rule mixes sigmas: 1 by the half sum, 2 by
 * the root of the product; another number is out of range (3). */
typedef struct {
    double epsilon;
    double sigma;
    double cutoff;
    uint32_t shift;
    uint32_t rule;
} tyn_lj;

typedef struct {
    tyn_done done;
    tyn_lj lj;
} tyn_lj_answer;

/* A force constant, and a length at rest. (The Rust's HarmonicBonds; its tables are lent.) */
typedef struct {
    double k;
    double r0;
} tyn_bond;

typedef struct {
    tyn_done done;
    tyn_bond bond;
} tyn_bond_answer;

/* No Lennard-Jones term (present 0), or one (present not 0). */
typedef struct {
    uint32_t present;
    tyn_lj lj;
} tyn_lj_term;

/* No Coulomb term (present 0), or one (present not 0). */
typedef struct {
    uint32_t present;
    double cutoff;
} tyn_coulomb_term;

/* No bonds (present 0), or bonds (present not 0). */
typedef struct {
    uint32_t present;
    tyn_bond bond;
} tyn_bond_term;

/* A force constant, and a cosine at rest. */
typedef struct {
    double k;
    double rest;
} tyn_angle;

/* No angles (present 0), or angles (present not 0). */
typedef struct {
    uint32_t present;
    tyn_angle angle;
} tyn_angle_term;

/* What an evaluation goes by besides its tables: the terms, the units, and the cell. */
typedef struct {
    tyn_lj_term lj;
    tyn_coulomb_term coulomb;
    tyn_bond_term bond;
    tyn_angle_term angle;
    tyn_units units;
    tyn_cell cell;
} tyn_setting;

/* Whether the list was built anew (a flag), its state, which comes back in every case, and energy and virial; the forces stand in what was lent. */
typedef struct {
    tyn_done done;
    uint32_t rebuilt;
    tyn_state state;
    tyn_sum sum;
} tyn_evaluated;

typedef struct {
    tyn_done done;
    tyn_angle angle;
} tyn_angle_answer;

/* No thermostat (present 0), or Berendsen's (present not 0). */
typedef struct {
    uint32_t present;
    double target_k;
    double tau_fs;
} tyn_thermostat;

/* How a step goes on in time. */
typedef struct {
    double dt;
    tyn_thermostat thermostat;
} tyn_pace;

/* Whether a 7 or 8 stopped the step after the drift and whether the list was built anew (flags); the list's state and the potential, which come back
 * in every case. */
typedef struct {
    tyn_done done;
    uint32_t stopped;
    uint32_t rebuilt;
    tyn_state state;
    double potential;
} tyn_stepped;

/* How a box is settled: most iterations (at most 100,000), the force tolerance on the largest component, the first time step and the largest. */
typedef struct {
    uint32_t max_iters;
    double force_tol;
    double dt;
    double dt_max;
} tyn_fire_options;

/* The iterations, or the one that was refused; whether a 7 or 8 stopped it after a drift and whether the tolerance was reached (flags); energy and
 * largest force component of the last evaluation that was answered, zero where there was none; the list's state, which comes back in every case. */
typedef struct {
    tyn_done done;
    uint32_t iteration;
    uint32_t stopped;
    uint32_t converged;
    double energy;
    double max_force;
    tyn_state state;
} tyn_fired;

/* How many rows of each table are left; lengths and ks are the Rust's per_bond and per_bond_k. */
typedef struct {
    size_t atoms;
    size_t bonds;
    size_t lengths;
    size_t ks;
    size_t angles;
    size_t per_angle;
    size_t exclusions;
} tyn_left;

/* How many rows of each table are left, zeros where refused; and the list's state, which comes back in every case. */
typedef struct {
    tyn_done done;
    tyn_left left;
    tyn_state state;
} tyn_struck;

/* One atom with all its numbers. */
typedef struct {
    tyn_vec3 position;
    tyn_vec3 velocity;
    double mass;
    double charge;
    uint32_t species;
} tyn_new_atom;

/* How many atoms there are now; and the list's state, which comes back in every case. */
typedef struct {
    tyn_done done;
    uint32_t count;
    tyn_state state;
} tyn_entered;

/* ---- Helpers on floats: total on every float, no refusal. One not-a-number. */

/* The square root of x, rounded to nearest; of a number below 0 not a number. */
double tyn_root(double x);

/* The largest whole number that is at most x. */
double tyn_floor(double x);

/* x without its fraction. */
double tyn_trunc(double x);

/* The nearest whole number, a half away from zero. */
double tyn_round(double x);

/* Rust's rem_euclid: the rest of x by y that is not below 0. */
double tyn_rem_euclid(double x, double y);

/* The magnitude of x. */
double tyn_abs(double x);

/* The smaller one, passing over a not-a-number; of two zeros the negative one. */
double tyn_min(double x, double y);

/* The larger one, passing over a not-a-number; of two zeros the positive one. */
double tyn_max(double x, double y);

/* lo where x < lo, else x; then hi where that is above hi. */
double tyn_clamp(double x, double lo, double hi);

/* Rust's as i64: a not-a-number gives 0, too large the type's end. */
int64_t tyn_to_i64(double x);

/* Rust's as u64: a not-a-number gives 0, too large the type's end. */
uint64_t tyn_to_u64(double x);

/* The float of 64 bits; any pattern of a not-a-number is the one. */
double tyn_of_bits(uint64_t w);

/* The 64 bits of a float; a not-a-number is 7ff8000000000000. */
uint64_t tyn_to_bits(double x);

/* ---- Lattices and the minimum image (cell.rs). Refusal 3. */

/* The lattice of a box with edges lx, ly, lz along the axes, periodic on all three. Refusal 3. */
tyn_lattice_answer tyn_orthorhombic(double lx, double ly, double lz);

/* The lattice of a cube with edge l, periodic on all three axes. Refusal 3. */
tyn_lattice_answer tyn_cubic(double l);

/* Whether the off-diagonal magnitudes sum to less than 1e-9. Refusal 3. */
tyn_yes_no tyn_is_orthorhombic(tyn_lattice lattice);

/* The lattice vectors as the columns of three rows. Refusal 3. */
tyn_rows_answer tyn_matrix(tyn_lattice lattice);

/* The volume. Refusal 3. */
tyn_number tyn_volume(tyn_lattice lattice);

/* The inverse of the matrix, if there is one. Refusal 3. */
tyn_inverse_answer tyn_inverse(tyn_lattice lattice);

/* Fractional coordinates of r. Refusal 3. */
tyn_vector tyn_to_fractional(tyn_lattice lattice, tyn_vec3 r);

/* Cartesian coordinates of s. Refusal 3. */
tyn_vector tyn_to_cartesian(tyn_lattice lattice, tyn_vec3 s);

/* r folded into the cell on its periodic axes. Refusal 3. */
tyn_vector tyn_wrap(tyn_lattice lattice, tyn_vec3 r);

/* The widths between opposite faces. Refusal 3. */
tyn_vector tyn_perp_widths(tyn_lattice lattice);

/* The minimum image of the difference d. Refusal 3. */
tyn_image_answer tyn_min_image(tyn_vec3 d, tyn_cell cell);

/* ---- Energy, forces and virial, and the pressures that they feed (virial.rs). */

/* A sum of zeros, the forces all +0. Refusals 1, 2. */
tyn_summed tyn_zeros(double *forces, size_t forces_len);

/* The sum and the forces with the other ones added; added are the forces of other. Refusals 1, 2, 3. */
tyn_summed tyn_merge(tyn_sum sum, double *forces, size_t forces_len, tyn_sum other, const double *added, size_t added_len);

/* The sum with the pair added: f on atom i and -f on atom j, d apart. Refusals 1, 2, 3, 4. */
tyn_summed tyn_add_pair_force(tyn_sum sum, double *forces, size_t forces_len, uint32_t i, uint32_t j, tyn_vec3 d, tyn_vec3 f);

/* The virial with the pair added. Refusal 3. */
tyn_rows_answer tyn_virial_from_pair(tyn_rows virial, tyn_vec3 d, tyn_vec3 f);

/* The trace of the virial. Refusal 3. */
tyn_number tyn_scalar_virial(tyn_rows virial);

/* The pressure of a kinetic energy and a scalar virial in a volume. Refusal 3. */
tyn_number tyn_pressure(double kinetic, double scalar, double volume);

/* The pressure tensor. Refusals 1, 2, 3. */
tyn_rows_answer tyn_pressure_tensor(tyn_units units, double volume, tyn_rows virial, const double *velocities, size_t velocities_len,
    const double *masses, size_t masses_len);

/* A pressure in gigapascal. Refusal 3. */
tyn_number tyn_to_gpa(tyn_units units, double pressure);

/* ---- The pair list of a float frame (neighbor.rs), and exclusion tables. */

/* A list with the given cutoff and skin: no pairs, references, checks, fallback, builds, and no cell that it was built in. Refusal 3. */
tyn_state_answer tyn_new(double cutoff, double skin);

/* The search radius, cutoff + skin. Refusal 3. */
tyn_number tyn_search_radius(tyn_state s);

/* How many builds there were since an earlier reading of the counter, which comes round to zero after 2^32 - 1. The rest of the state is not looked
 * at; no refusal. */
uint32_t tyn_builds_since(tyn_state s, uint32_t earlier);

/* One more pair of atoms in the first count rows of an exclusion table; the value is the new count. Refusals 1, 5, 8. */
tyn_whole tyn_exclude(uint32_t count, uint32_t i, uint32_t j, uint32_t *table, size_t table_len);

/* The exclusion table of the raw pairs; the value is the count of its rows. Refusals 1, 8. */
tyn_whole tyn_set_exclusions(const uint32_t *raw, size_t raw_len, uint32_t *table, size_t table_len);

/* Whether the list must be built anew for these positions. Refusals 1, 2, 6, 3. */
tyn_yes_no tyn_needs_rebuild(tyn_state s, tyn_cell cell, const double *positions, size_t positions_len, const double *references,
    size_t references_len);

/* The list built anew. Refusals 1, 2, 6, 3, 5, 7, 8. */
tyn_updated tyn_build(tyn_state s, tyn_cell cell, const double *positions, size_t positions_len, const uint32_t *exclusions, size_t exclusions_len,
    uint32_t *pairs, size_t pairs_len, double *references, size_t references_len, uint32_t *starts, size_t starts_len, uint32_t *items,
    size_t items_len);

/* The list built anew where it must be. Refusals 1, 2, 6, 3, 4, 5, 7, 8. */
tyn_updated tyn_maybe_build(tyn_state s, tyn_cell cell, const double *positions, size_t positions_len, const uint32_t *exclusions,
    size_t exclusions_len, uint32_t *pairs, size_t pairs_len, double *references, size_t references_len, uint32_t *starts, size_t starts_len,
    uint32_t *items, size_t items_len);

/* ---- Whether a list still stands in the cell that it was built in. */

/* Whether the list must be built anew for these positions in this cell: as tyn_needs_rebuild says, or the cell differs from the one that it was built
 * in, in a bit of its nine numbers, in a flag, or in being present. Refusals 1, 2, 6, 3. */
tyn_yes_no tyn_outdated(tyn_state s, tyn_cell cell, const double *positions, size_t positions_len, const double *references, size_t references_len);

/* ---- Parts of lent tables, told by their first element and length. */

/* The listed pairs: the part of the lent pairs that the state counts. Refusal 6. */
tyn_part tyn_listed(tyn_state s, const uint32_t *pairs, size_t pairs_len);

/* The excluded pairs: the first count rows of an exclusion table. Refusal 1. */
tyn_part tyn_excluded_rows(uint32_t count, const uint32_t *table, size_t table_len);

/* The atoms of a grid cell: the part of items between two starts. Refusal 1. */
tyn_part tyn_atoms_in(size_t cell, const uint32_t *starts, size_t starts_len, const uint32_t *items, size_t items_len);

/* ---- The whole-number frame, and job sheets. */

/* The exact squared distance of the nearest images of two atoms. Refusal 3. */
tyn_whole tyn_squared_distance(tyn_frame f, tyn_spot p, tyn_spot q);

/* The pairs within the radius that the exclusion table leaves. Refusals 1, 2, 3, 5, 7, 8. */
tyn_built tyn_frame_build(tyn_frame f, const uint32_t *coordinates, size_t coordinates_len, const uint32_t *exclusions, size_t exclusions_len,
    uint32_t *pairs, size_t pairs_len, uint32_t *starts, size_t starts_len, uint32_t *items, size_t items_len);

/* A job sheet: its numbers, with the coordinates (at least 3072 lent) and the exclusions (at least 2048 lent) in what is lent. Refusals 1, 9, 10, 8,
 * 11, 2, 4. */
tyn_sheet tyn_read(const uint8_t *input, size_t input_len, uint32_t *coordinates, size_t coordinates_len, uint32_t *exclusions,
    size_t exclusions_len);

/* The printed answer of a job sheet at the front of out (at least 90133 bytes); the value is its length. Refusal 1. */
tyn_whole tyn_solve(const uint8_t *input, size_t input_len, uint8_t *out, size_t out_len);

/* ---- How long the list of a whole-number frame may be kept. */

/* Whether each atom has moved, by nearest image, so that four times its squared displacement is at most the squared skin: then a list that was built
 * over the old coordinates with the radius cutoff + skin has every pair of the moved ones that is within the cutoff. f.radius is the cutoff. Refusals
 * 1, 2, 3. */
tyn_yes_no tyn_within_skin(tyn_frame f, uint32_t skin, const uint32_t *old, size_t old_len, const uint32_t *moved, size_t moved_len);

/* ---- Shell counts over a run of whole-number frames. */

/* The pairs of tyn_frame_build, each added to the total of its shell: its squared distance divided by width, the last shell open upward. Refusals 1,
 * 2, 3 (also a width of 0 or no totals), 5, 7, 8, 13 (a total would pass 2^64 - 1: the totals are as they came, the list is there). */
tyn_built tyn_add_shells(tyn_frame f, const uint32_t *coordinates, size_t coordinates_len, const uint32_t *exclusions, size_t exclusions_len,
    uint64_t width, uint64_t *totals, size_t totals_len, uint32_t *pairs, size_t pairs_len, uint32_t *starts, size_t starts_len, uint32_t *items,
    size_t items_len);

/* ---- Clumps: which atoms hang together by listed pairs. */

/* Labels of count atoms by a list of pairs: the lowest atom that a chain of pairs reaches; the value is how many clumps. Refusals 1, 2, 4. */
tyn_whole tyn_label(uint32_t count, const uint32_t *pairs, size_t pairs_len, uint32_t *labels, size_t labels_len);

/* The printed clumps of a job sheet at the front of out (at least 11264 bytes); the value is their length. Refusal 1. */
tyn_whole tyn_solve_clumps(const uint8_t *input, size_t input_len, uint8_t *out, size_t out_len);

/* ---- Written sheets, and sheets of either form. */

/* The written form of a frame, its atoms and its exclusions at the front of out (43049 bytes are always enough); the value is its length. Refusals 1,
 * 2, 3, 5, 8. */
tyn_whole tyn_write(tyn_frame f, const uint32_t *coordinates, size_t coordinates_len, const uint32_t *exclusions, size_t exclusions_len,
    uint8_t *out, size_t out_len);

/* The written form of a job sheet, or the line of its refusal, at the front of out (at least 43049 bytes); the value is its length. Refusal 1. */
tyn_whole tyn_rewrite(const uint8_t *input, size_t input_len, uint8_t *out, size_t out_len);

/* A job sheet of either form: as tyn_read, with a species for each atom (at least 1024 lent), 0 on a sheet of the first form, and with its rule, 1
 * there and where a header doesn't say one. Refusals 1, 9, 10, 8, 11, 2, 4. */
tyn_formed tyn_read_either(const uint8_t *input, size_t input_len, uint32_t *coordinates, size_t coordinates_len, uint32_t *species,
    size_t species_len, uint32_t *exclusions, size_t exclusions_len);

/* A job sheet of the first form in the second, rule 1, each species 0, at the front of out (51243 bytes are always enough); the value is its length.
 * Refusals: those of tyn_read, then 3, 8. */
tyn_whole tyn_to_two(const uint8_t *input, size_t input_len, uint8_t *out, size_t out_len);

/* A job sheet of the second form in the first, at the front of out (43049 bytes are always enough); the value is its length. Refusals: those of
 * tyn_read, then 12 (the place is 0xffffffff where the rule is 2, else the lowest atom whose species is not 0), then 3, 8. */
tyn_whole tyn_to_one(const uint8_t *input, size_t input_len, uint8_t *out, size_t out_len);

/* As tyn_solve, of a job sheet of either form. Refusal 1. */
tyn_whole tyn_solve_either(const uint8_t *input, size_t input_len, uint8_t *out, size_t out_len);

/* ---- A desk's own species rows over the house's table. */

/* The row of a species: of the desk's own table where that has it, else of the house's, else none. Refusals 1, 3, 5 of both tables (5, place 1, for
 * the house's ids). */
tyn_row tyn_species_row(const uint32_t *own_ids, size_t own_ids_len, const double *own_params, size_t own_params_len, const uint32_t *ids,
    size_t ids_len, const double *params, size_t params_len, uint32_t species);

/* ---- The terms over pairs (potentials.rs), and the evaluator. */

/* Lennard-Jones numbers of a single species, shifted. Refusal 3. */
tyn_lj_answer tyn_monatomic(double epsilon, double sigma, double cutoff);

/* Lennard-Jones numbers of argon. No refusal. */
tyn_lj tyn_argon(void);

/* Bond numbers, the same for each bond. Refusal 3. */
tyn_bond_answer tyn_uniform(double k, double r0);

/* Lennard-Jones over the listed pairs: forces overwritten, from zero. own_ids and ids are the species that own_params and params have epsilon and
 * sigma of, a desk's own table and the house's; a species' row is the own one where there is one. species is an id an atom. Refusals 1, 2, 3, 4, 5
 * (place 1 for the house's ids). */
tyn_summed tyn_lj_pairs(tyn_lj lj, tyn_cell cell, const uint32_t *own_ids, size_t own_ids_len, const double *own_params, size_t own_params_len,
    const uint32_t *ids, size_t ids_len, const double *params, size_t params_len, const uint32_t *species, size_t species_len,
    const double *positions, size_t positions_len, const uint32_t *pairs, size_t pairs_len, double *forces, size_t forces_len);

/* Lennard-Jones over every pair, i, then j, rising. Refusals 1, 2, 3, 5. */
tyn_summed tyn_lj_all(tyn_lj lj, tyn_cell cell, const uint32_t *own_ids, size_t own_ids_len, const double *own_params, size_t own_params_len,
    const uint32_t *ids, size_t ids_len, const double *params, size_t params_len, const uint32_t *species, size_t species_len,
    const double *positions, size_t positions_len, double *forces, size_t forces_len);

/* Coulomb over the listed pairs: forces overwritten, from zero. Refusals 1, 2, 3, 4. */
tyn_summed tyn_coulomb_pairs(tyn_units units, double cutoff, tyn_cell cell, const double *charges, size_t charges_len, const double *positions,
    size_t positions_len, const uint32_t *pairs, size_t pairs_len, double *forces, size_t forces_len);

/* Coulomb over every pair, i, then j, rising. Refusals 1, 2, 3. */
tyn_summed tyn_coulomb_all(tyn_units units, double cutoff, tyn_cell cell, const double *charges, size_t charges_len, const double *positions,
    size_t positions_len, double *forces, size_t forces_len);

/* Harmonic bonds, two atoms a row: forces overwritten, from zero. A bond past the end of lengths or ks takes bond's own number. Refusals 1, 2, 3, 4. */
tyn_summed tyn_bonds_all(tyn_bond bond, tyn_cell cell, const uint32_t *bonds, size_t bonds_len, const double *lengths, size_t lengths_len,
    const double *ks, size_t ks_len, const double *positions, size_t positions_len, double *forces, size_t forces_len);

/* The list brought up to date, then each present term, Lennard-Jones, Coulomb, bonds, angles, merged in this order into zero. Refusals 1, 2, 6, 3, 4,
 * 5, 7, 8. */
tyn_evaluated tyn_evaluate(tyn_setting setting, tyn_state s, const uint32_t *own_ids, size_t own_ids_len, const double *own_params,
    size_t own_params_len, const uint32_t *ids, size_t ids_len, const double *params, size_t params_len, const uint32_t *species, size_t species_len,
    const double *charges, size_t charges_len, const uint32_t *bonds, size_t bonds_len, const double *lengths, size_t lengths_len, const double *ks,
    size_t ks_len, const uint32_t *angles, size_t angles_len, const double *per_angle, size_t per_angle_len, const double *positions,
    size_t positions_len, const uint32_t *exclusions, size_t exclusions_len, uint32_t *pairs, size_t pairs_len, double *references,
    size_t references_len, uint32_t *starts, size_t starts_len, uint32_t *items, size_t items_len, double *forces, size_t forces_len);

/* ---- Cosine angles. */

/* Angle numbers, the same for each angle. Refusal 3. */
tyn_angle_answer tyn_uniform_angles(double k, double rest);

/* Cosine angles, three atoms a row, the apex second: forces overwritten, from zero. An angle past the end of per_angle, which has k and rest cosine a
 * row, takes angle's own numbers. Refusals 1, 2, 3, 4. */
tyn_summed tyn_angles_all(tyn_angle angle, tyn_cell cell, const uint32_t *angles, size_t angles_len, const double *per_angle, size_t per_angle_len,
    const double *positions, size_t positions_len, double *forces, size_t forces_len);

/* ---- Kinetic energy, temperature and thermostat (verlet.rs). */

/* The kinetic energy; velocities are three floats a mass. Refusals 1, 2, 3. */
tyn_number tyn_kinetic_energy(tyn_units units, const double *velocities, size_t velocities_len, const double *masses, size_t masses_len);

/* The temperature by dof degrees of freedom. Refusals 1, 2, 3. */
tyn_number tyn_temperature(tyn_units units, double dof, const double *velocities, size_t velocities_len, const double *masses, size_t masses_len);

/* The velocities rescaled by Berendsen's thermostat. Refusals 1, 2, 3. */
tyn_done tyn_berendsen(tyn_units units, double dt, double target_k, double tau_fs, const double *masses, size_t masses_len, double *velocities,
    size_t velocities_len);

/* ---- The step (verlet.rs). */

/* One step of velocity Verlet: half a kick and the drift, the evaluation, half a kick, the thermostat. forces and potential are those at the
 * positions. Where a 7 or 8 stopped it after the drift (stopped is 1), positions and velocities are drifted, forces and potential old: call
 * tyn_finish with more room. Refusals 1, 2, 6, 3, 4, 5, the drift (3, place 1), 7, 8. */
tyn_stepped tyn_step(tyn_setting setting, tyn_pace pace, tyn_state s, double potential, const uint32_t *own_ids, size_t own_ids_len,
    const double *own_params, size_t own_params_len, const uint32_t *ids, size_t ids_len, const double *params, size_t params_len,
    const uint32_t *species, size_t species_len, const double *charges, size_t charges_len, const uint32_t *bonds, size_t bonds_len,
    const double *lengths, size_t lengths_len, const double *ks, size_t ks_len, const uint32_t *angles, size_t angles_len, const double *per_angle,
    size_t per_angle_len, const double *masses, size_t masses_len, const uint32_t *exclusions, size_t exclusions_len, double *positions,
    size_t positions_len, double *velocities, size_t velocities_len, uint32_t *pairs, size_t pairs_len, double *references, size_t references_len,
    uint32_t *starts, size_t starts_len, uint32_t *items, size_t items_len, double *forces, size_t forces_len);

/* The rest of a step that a 7 or 8 stopped: the evaluation, the second half kick, the thermostat. Velocities to 2^500. Refusals 1, 2, 6, 3, 4, 5, 7,
 * 8. */
tyn_stepped tyn_finish(tyn_setting setting, tyn_pace pace, tyn_state s, double potential, const uint32_t *own_ids, size_t own_ids_len,
    const double *own_params, size_t own_params_len, const uint32_t *ids, size_t ids_len, const double *params, size_t params_len,
    const uint32_t *species, size_t species_len, const double *charges, size_t charges_len, const uint32_t *bonds, size_t bonds_len,
    const double *lengths, size_t lengths_len, const double *ks, size_t ks_len, const uint32_t *angles, size_t angles_len, const double *per_angle,
    size_t per_angle_len, const double *masses, size_t masses_len, const uint32_t *exclusions, size_t exclusions_len, const double *positions,
    size_t positions_len, double *velocities, size_t velocities_len, uint32_t *pairs, size_t pairs_len, double *references, size_t references_len,
    uint32_t *starts, size_t starts_len, uint32_t *items, size_t items_len, double *forces, size_t forces_len);

/* ---- Settling a freshly packed box (fire.rs). */

/* Relaxes the positions to a local minimum of the energy by damped steps: the first evaluation, the atoms at rest, then iterations until the largest
 * force component is within the tolerance or the limit is reached. forces is a room. A refusal inside an iteration tells it and leaves what a step
 * stopped there leaves. Refusals 1, 2, 6, 3, 4, 5, then 7, 8, in an iteration also the drift (3, place 1). */
tyn_fired tyn_fire(tyn_fire_options o, tyn_setting setting, tyn_state s, const uint32_t *own_ids, size_t own_ids_len, const double *own_params,
    size_t own_params_len, const uint32_t *ids, size_t ids_len, const double *params, size_t params_len, const uint32_t *species, size_t species_len,
    const double *charges, size_t charges_len, const uint32_t *bonds, size_t bonds_len, const double *lengths, size_t lengths_len, const double *ks,
    size_t ks_len, const uint32_t *angles, size_t angles_len, const double *per_angle, size_t per_angle_len, const double *masses, size_t masses_len,
    const uint32_t *exclusions, size_t exclusions_len, double *positions, size_t positions_len, double *velocities, size_t velocities_len,
    uint32_t *pairs, size_t pairs_len, double *references, size_t references_len, uint32_t *starts, size_t starts_len, uint32_t *items,
    size_t items_len, double *forces, size_t forces_len);

/* ---- Atoms struck from a running melt, and put into it. */

/* Strike the atoms whose mark is 1 (0 keeps one), with every bond, angle and exclusion that names one and the rows of lengths, ks and per_angle
 * beside them; an exclusion that names no atom and rows past the last bond or angle go too. In place: survivors in their old order at the front, past
 * the new counts everything as it came. The state has no pairs and no references then. Refusals 1, 2, 3 (a mark), 4 (a bond, then an angle), 5;
 * nothing is moved then. */
tyn_struck tyn_strike(const uint32_t *marks, size_t marks_len, tyn_state s, double *positions, size_t positions_len, double *velocities,
    size_t velocities_len, double *masses, size_t masses_len, double *charges, size_t charges_len, uint32_t *species, size_t species_len,
    uint32_t *bonds, size_t bonds_len, double *lengths, size_t lengths_len, double *ks, size_t ks_len, uint32_t *angles, size_t angles_len,
    double *per_angle, size_t per_angle_len, uint32_t *exclusions, size_t exclusions_len);

/* One atom more after the first count, with all its numbers. The state has no pairs and no references then. Refusals 1 (also where the room is full),
 * 2, 3; nothing is stored then. */
tyn_entered tyn_put(uint32_t count, tyn_new_atom new, tyn_state s, double *positions, size_t positions_len, double *velocities,
    size_t velocities_len, double *masses, size_t masses_len, double *charges, size_t charges_len, uint32_t *species, size_t species_len);

#ifdef __cplusplus
}
#endif

#endif
