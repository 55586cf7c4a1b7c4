/* Each shape of argument and answer that crosses the boundary, called from C: structs of each size, flags above 1, parts of tables, a sheet's text.
 * Says which line was not as expected; the status is 1 then. */
#include <stdio.h>
#include <string.h>
#include "tyngyrlak.h"

static int bad = 0;

#define EXPECT(test) \
    do { \
        if (!(test)) { \
            printf("line %d: %s\n", __LINE__, #test); \
            bad = 1; \
        } \
    } while (0)

static void helpers_and_cells(void)
{
    EXPECT(tyn_root(4.0) == 2.0 && tyn_round(2.5) == 3.0 && tyn_round(-0.5) == -1.0 && tyn_rem_euclid(-1.0, 3.0) == 2.0);
    EXPECT(tyn_to_i64(-2.5) == -2 && tyn_to_u64(-1.0) == 0 && tyn_to_bits(2.0) == 0x4000000000000000u && tyn_of_bits(0) == 0.0);
    tyn_lattice_answer box = tyn_orthorhombic(2.0, 4.0, 8.0);
    EXPECT(box.done.number == 0 && box.lattice.b.y == 4.0 && box.lattice.pz == 1);
    EXPECT(tyn_cubic(2097152.0).done.number == TYN_RANGE);
    tyn_number volume = tyn_volume(box.lattice);
    EXPECT(volume.done.number == 0 && volume.value == 64.0);
    EXPECT(tyn_is_orthorhombic(box.lattice).value == 1);
    tyn_rows_answer matrix = tyn_matrix(box.lattice);
    EXPECT(matrix.done.number == 0 && matrix.rows.x[0] == 2.0 && matrix.rows.z[2] == 8.0 && matrix.rows.x[1] == 0.0);
    tyn_inverse_answer inverse = tyn_inverse(box.lattice);
    EXPECT(inverse.done.number == 0 && inverse.found == 1 && inverse.rows.y[1] == 0.25);
    tyn_vector s = tyn_to_fractional(box.lattice, (tyn_vec3){1.0, 1.0, 2.0});
    EXPECT(s.done.number == 0 && s.value.x == 0.5 && s.value.y == 0.25 && s.value.z == 0.25);
    EXPECT(tyn_wrap(box.lattice, (tyn_vec3){3.0, -1.0, 2.0}).value.y == 3.0);
    EXPECT(tyn_perp_widths(box.lattice).value.z == 8.0);
    EXPECT(tyn_min_image((tyn_vec3){1.5, 0.0, 5.0}, (tyn_cell){1, box.lattice}).image.diff.z == -3.0);
    EXPECT(tyn_min_image((tyn_vec3){1.5, 0.0, 5.0}, (tyn_cell){0, box.lattice}).image.diff.z == 5.0);
    EXPECT(tyn_min_image((tyn_vec3){1.5, -9.0, 5.0}, (tyn_cell){1, box.lattice}).image.y == -2);
    EXPECT(tyn_min_image((tyn_vec3){1.5, 0.0, 5.0}, (tyn_cell){1, box.lattice}).image.kind == 0);
    EXPECT(tyn_min_image((tyn_vec3){1e20, 0.0, 5.0}, (tyn_cell){1, box.lattice}).image.kind == 1);
    EXPECT(tyn_min_image((tyn_vec3){1.5, 0.0, 5.0}, (tyn_cell){1, (tyn_lattice){{0, 0, 0}, {0, 0, 0}, {0, 0, 0}, 0, 0, 0}}).image.kind == 2);
    /* any number but 0 is yes */
    EXPECT(tyn_min_image((tyn_vec3){1.5, 0.0, 5.0}, (tyn_cell){7, box.lattice}).image.diff.z == -3.0);
    box.lattice.py = 7;
    EXPECT(tyn_volume(box.lattice).value == 64.0 && tyn_inverse(box.lattice).found == 1);
    EXPECT(tyn_wrap(box.lattice, (tyn_vec3){3.0, -1.0, 2.0}).value.y == 3.0);
    box.lattice.py = 0;
    EXPECT(tyn_wrap(box.lattice, (tyn_vec3){3.0, -1.0, 2.0}).value.y == -1.0);
}

static void sums(void)
{
    const tyn_units units = {0.5, 0.25, 14.0, 160.0};
    double forces[6] = {9, 9, 9, 9, 9, 9}, velocities[3] = {1.0, 2.0, 2.0}, masses[1] = {2.0};
    tyn_summed zero = tyn_zeros(forces, 6);
    EXPECT(zero.done.number == 0 && zero.sum.zz == 0.0 && forces[5] == 0.0);
    tyn_summed one = tyn_add_pair_force(zero.sum, forces, 6, 0, 1, (tyn_vec3){1.0, 2.0, 3.0}, (tyn_vec3){4.0, 5.0, 6.0});
    EXPECT(one.done.number == 0 && forces[0] == 4.0 && forces[5] == -6.0 && one.sum.xz == 6.0 && one.sum.zx == 12.0);
    EXPECT(tyn_add_pair_force(zero.sum, forces, 6, 0, 2, (tyn_vec3){1, 2, 3}, (tyn_vec3){4, 5, 6}).done.number == TYN_NOT_THERE);
    tyn_rows w = {{1, 0, 0}, {0, 2, 0}, {0, 0, 3}};
    EXPECT(tyn_scalar_virial(w).value == 6.0);
    EXPECT(tyn_virial_from_pair(w, (tyn_vec3){1, 1, 1}, (tyn_vec3){0, 1, 0}).rows.y[1] == 3.0);
    EXPECT(tyn_kinetic_energy(units, velocities, 3, masses, 1).value == 18.0);
    EXPECT(tyn_kinetic_energy(units, velocities, 2, masses, 1).done.number == TYN_LENGTHS);
    EXPECT(tyn_pressure_tensor(units, 1.0, w, velocities, 3, masses, 1).rows.x[1] == 8.0);
    tyn_done cooled = tyn_berendsen(units, 1.0, 0.0, 1.0, masses, 1, velocities, 3);
    EXPECT(cooled.number == 0 && velocities[1] == 0.0);
    EXPECT(tyn_berendsen(units, 1.0, -1.0, 1.0, masses, 1, velocities, 3).number == TYN_RANGE);
    tyn_bond_answer bond = tyn_uniform(2.0, 1.5);
    const uint32_t rows[2] = {0, 1};
    const double positions[6] = {0, 0, 0, 2.5, 0, 0}, none = 0.0;
    const tyn_cell open = {0, {{0, 0, 0}, {0, 0, 0}, {0, 0, 0}, 0, 0, 0}};
    tyn_summed pull = tyn_bonds_all(bond.bond, open, rows, 2, &none, 0, &none, 0, positions, 6, forces, 6);
    EXPECT(pull.done.number == 0 && pull.sum.energy == 1.0 && forces[0] == 2.0 && forces[3] == -2.0);
    EXPECT(tyn_argon().shift == 1 && tyn_argon().rule == 1 && tyn_argon().sigma == 3.4 && tyn_monatomic(1.0, 2.0, 3.0).lj.cutoff == 3.0);
    /* sigmas 1 and 4 mix to 2.5 by rule 1 and to 2 by rule 2, epsilons 1 and 4 to 2 by both; another rule is out of range */
    const uint32_t ids[2] = {1, 2}, species[2] = {1, 2};
    const double params[4] = {1, 1, 4, 4};
    tyn_lj lj = {0, 0, 10, 0, 2};
    const tyn_lj mixed[2] = {{2, 2.5, 10, 0, 1}, {2, 2, 10, 0, 1}};
    for (uint32_t rule = 0; rule < 4; rule++) {
        lj.rule = rule;
        tyn_summed two = tyn_lj_all(lj, open, ids, 0, &none, 0, ids, 2, params, 4, species, 2, positions, 6, forces, 6);
        if (rule == 1 || rule == 2) {
            tyn_summed one = tyn_lj_all(mixed[rule - 1], open, ids, 0, &none, 0, ids, 0, &none, 0, species, 2, positions, 6, forces, 6);
            EXPECT(two.done.number == 0 && two.sum.energy == one.sum.energy && two.sum.xx == one.sum.xx);
        } else {
            EXPECT(two.done.number == TYN_RANGE && two.done.place == 0);
        }
    }
}

static void lists(void)
{
    const tyn_cell open = {0, {{0, 0, 0}, {0, 0, 0}, {0, 0, 0}, 0, 0, 0}};
    double positions[9] = {0, 0, 0, 1, 0, 0, 2, 0, 0}, references[9] = {0};
    uint32_t pairs[8] = {0}, starts[4] = {0}, items[3] = {0}, table[4] = {7, 7, 7, 7};
    tyn_state list = tyn_new(1.0, 0.5).state;
    tyn_whole count = tyn_exclude(0, 2, 1, table, 4);
    EXPECT(count.done.number == 0 && count.value == 1 && table[0] == 1 && table[1] == 2 && table[2] == 7);
    tyn_part excluded = tyn_excluded_rows(1, table, 4);
    EXPECT(excluded.done.number == 0 && excluded.start == 0 && excluded.length == 2 && tyn_excluded_rows(3, table, 4).done.number == TYN_LENGTHS);
    tyn_updated built = tyn_build(list, open, positions, 9, table, 2, pairs, 8, references, 9, starts, 4, items, 3);
    EXPECT(built.done.number == 0 && built.rebuilt == 1 && built.state.pairs == 1 && built.state.fallback == 1 && pairs[0] == 0 && pairs[1] == 1 && references[6] == 2.0);
    tyn_part listed = tyn_listed(built.state, pairs, 8);
    EXPECT(listed.done.number == 0 && listed.start == 0 && listed.length == 2 && tyn_listed(built.state, pairs, 1).done.number == TYN_CLAIMS);
    EXPECT(tyn_needs_rebuild(built.state, open, positions, 9, references, 9).value == 0 && tyn_builds_since(built.state, 0) == 1);
    tyn_cell box = {1, {{4, 0, 0}, {0, 4, 0}, {0, 0, 4}, 1, 2, 3}};
    EXPECT(built.state.built_in.present == 0 && tyn_outdated(built.state, open, positions, 9, references, 9).value == 0);
    EXPECT(tyn_outdated(built.state, box, positions, 9, references, 9).value == 1 && tyn_needs_rebuild(built.state, box, positions, 9, references, 9).value == 0);
    tyn_updated boxed = tyn_build(built.state, box, positions, 9, table, 2, pairs, 8, references, 9, starts, 4, items, 3);
    EXPECT(boxed.done.number == 0 && boxed.state.built_in.present == 1 && boxed.state.built_in.lattice.b.y == 4.0 && boxed.state.built_in.lattice.pz == 1);
    EXPECT(tyn_outdated(boxed.state, box, positions, 9, references, 9).value == 0 && tyn_outdated(boxed.state, open, positions, 9, references, 9).value == 1);
    boxed.state.built_in.lattice.b.y = 1e9;
    EXPECT(tyn_outdated(boxed.state, box, positions, 9, references, 9).done.number == TYN_CLAIMS && tyn_listed(boxed.state, pairs, 8).done.number == TYN_CLAIMS);
    tyn_state odd = built.state;
    odd.fallback = 7;
    pairs[0] = 5;
    tyn_updated refused = tyn_build(odd, open, positions, 8, table, 2, pairs, 8, references, 9, starts, 4, items, 3);
    EXPECT(refused.done.number == TYN_LENGTHS && refused.state.fallback == 1 && refused.state.pairs == 1 && refused.rebuilt == 0 && pairs[0] == 5);
    tyn_updated again = tyn_build(odd, open, positions, 9, table, 2, pairs, 8, references, 9, starts, 4, items, 3);
    EXPECT(again.done.number == 0 && again.state.fallback == 1 && again.state.builds == 2 && pairs[0] == 0);
    EXPECT(tyn_builds_since(odd, 0) == 1 && tyn_search_radius(odd).value == 1.5 && tyn_search_radius(list).value == 1.5);
    const uint32_t from[3] = {0, 1, 3};
    tyn_part atoms = tyn_atoms_in(1, from, 3, items, 3);
    EXPECT(atoms.done.number == 0 && atoms.start == 1 && atoms.length == 2 && tyn_atoms_in(2, from, 3, items, 3).done.number == TYN_LENGTHS);
}

/* a desk's own species rows over the house's */
static void desks(void)
{
    const uint32_t own_ids[2] = {3, 7}, ids[3] = {1, 3, 9}, turned[2] = {7, 3}, species[2] = {3, 1}, none = 0;
    const double own[4] = {0.5, 3.0, 0.25, 2.0}, house[6] = {1.0, 4.0, 2.0, 5.0, 3.0, 6.0}, positions[6] = {0, 0, 0, 4.0, 0, 0}, zero = 0.0;
    double forces[6] = {0}, before[6] = {0};
    tyn_row first = tyn_species_row(own_ids, 2, own, 4, ids, 3, house, 6, 3), second = tyn_species_row(own_ids, 2, own, 4, ids, 3, house, 6, 9);
    tyn_row missing = tyn_species_row(own_ids, 2, own, 4, ids, 3, house, 6, 2);
    EXPECT(first.done.number == 0 && first.table == 1 && first.epsilon == 0.5 && first.sigma == 3.0);
    EXPECT(second.table == 2 && second.epsilon == 3.0 && second.sigma == 6.0 && missing.table == 0 && missing.epsilon == 0.0);
    tyn_row own_order = tyn_species_row(turned, 2, own, 4, turned, 2, own, 4, 3), house_order = tyn_species_row(own_ids, 2, own, 4, turned, 2, own, 4, 3);
    EXPECT(own_order.done.number == TYN_ORDER && own_order.done.place == 0 && house_order.done.number == TYN_ORDER && house_order.done.place == 1);
    EXPECT(tyn_species_row(own_ids, 2, own, 3, ids, 3, house, 6, 3).done.number == TYN_LENGTHS);
    const tyn_lj lj = {0.0, 1.0, 8.0, 0, 1};
    const tyn_cell open = {0};
    tyn_summed with = tyn_lj_all(lj, open, own_ids, 2, own, 4, ids, 3, house, 6, species, 2, positions, 6, forces, 6);
    tyn_summed without = tyn_lj_all(lj, open, &none, 0, &zero, 0, ids, 3, house, 6, species, 2, positions, 6, before, 6);
    EXPECT(with.done.number == 0 && without.done.number == 0 && with.sum.energy != without.sum.energy && forces[0] != before[0]);
}

static void settings(void)
{
    const uint32_t none = 0, rows[2] = {0, 1}, species[2] = {0, 0};
    const double zero = 0.0, charges[2] = {0, 0}, masses[2] = {2.0, 2.0};
    double positions[6] = {0, 0, 0, 2.5, 0, 0}, velocities[6] = {0}, references[6] = {0}, forces[6] = {0};
    uint32_t pairs[2] = {0}, starts[2] = {0}, items[2] = {0};
    tyn_setting setting = {.bond = {7, {2.0, 1.5}}, .units = {0.5, 0.25, 14.0, 160.0}};
    tyn_pace pace = {0.5, {7, 0.0, 0.5}};
    tyn_evaluated pull = tyn_evaluate(setting, tyn_new(1.0, 0.5).state, &none, 0, &zero, 0, &none, 0, &zero, 0, species, 2, charges, 2, rows, 2, &zero, 0, &zero, 0, &none, 0, &zero, 0, positions, 6,
        &none, 0, pairs, 2, references, 6, starts, 2, items, 2, forces, 6);
    EXPECT(pull.done.number == 0 && pull.rebuilt == 1 && pull.sum.energy == 1.0 && forces[0] == 2.0 && forces[3] == -2.0);
    tyn_stepped cold = tyn_step(setting, pace, pull.state, pull.sum.energy, &none, 0, &zero, 0, &none, 0, &zero, 0, species, 2, charges, 2, rows, 2, &zero, 0, &zero, 0, &none, 0, &zero, 0, masses, 2,
        &none, 0, positions, 6, velocities, 6, pairs, 2, references, 6, starts, 2, items, 2, forces, 6);
    EXPECT(cold.done.number == 0 && cold.stopped == 0 && cold.potential < 1.0 && positions[0] > 0.0 && velocities[0] == 0.0);
    pace.thermostat.present = 0;
    tyn_stepped rest = tyn_finish(setting, pace, cold.state, cold.potential, &none, 0, &zero, 0, &none, 0, &zero, 0, species, 2, charges, 2, rows, 2, &zero, 0, &zero, 0, &none, 0, &zero, 0, masses, 2,
        &none, 0, positions, 6, velocities, 6, pairs, 2, references, 6, starts, 2, items, 2, forces, 6);
    EXPECT(rest.done.number == 0 && velocities[0] > 0.0 && rest.potential == cold.potential);
    setting.bond.present = 0;
    tyn_evaluated still = tyn_evaluate(setting, rest.state, &none, 0, &zero, 0, &none, 0, &zero, 0, species, 2, charges, 2, rows, 2, &zero, 0, &zero, 0, &none, 0, &zero, 0, positions, 6, &none, 0, pairs,
        2, references, 6, starts, 2, items, 2, forces, 6);
    EXPECT(still.done.number == 0 && still.sum.energy == 0.0 && forces[0] == 0.0);
}

static void whole_numbers(void)
{
    static uint8_t out[90133];
    const char *sheet = "020003000000050000000500000008\n0300020000\n0100040000000a0000000a0000000a0700000003\n020000000000000000000000000000\n"
                        "020002000000050000000500000005\n020001000000090000000000000000\n";
    const char *answer = "81000000020000000500\n8200020003\n8200000001\n";
    tyn_frame frame = {10, 10, 10, 1, 1, 1, 3};
    EXPECT(tyn_squared_distance(frame, (tyn_spot){0, 0, 0}, (tyn_spot){9, 0, 0}).value == 1);
    frame.pz = 7;
    EXPECT(tyn_squared_distance(frame, (tyn_spot){0, 0, 0}, (tyn_spot){0, 0, 9}).value == 1);
    frame.pz = 0;
    EXPECT(tyn_squared_distance(frame, (tyn_spot){0, 0, 0}, (tyn_spot){0, 0, 9}).value == 81);
    /* twice the radius may equal a periodic edge but not pass it */
    frame.radius = 5;
    EXPECT(tyn_squared_distance(frame, (tyn_spot){0, 0, 0}, (tyn_spot){5, 0, 0}).value == 25);
    frame.radius = 6;
    EXPECT(tyn_squared_distance(frame, (tyn_spot){0, 0, 0}, (tyn_spot){5, 0, 0}).done.number == 3);
    frame.px = frame.py = 0;
    EXPECT(tyn_squared_distance(frame, (tyn_spot){0, 0, 0}, (tyn_spot){5, 0, 0}).done.number == 0);
    tyn_whole length = tyn_solve((const uint8_t *)sheet, strlen(sheet), out, sizeof out);
    EXPECT(length.done.number == 0 && length.value == strlen(answer) && memcmp(out, answer, strlen(answer)) == 0);
    /* to the second form and back; a species stays, and so does rule 2, which is told first */
    static uint8_t two[51243], one[43049];
    static uint32_t places[3072], species[1024], rows[2048];
    length = tyn_to_two((const uint8_t *)sheet, strlen(sheet), two, sizeof two);
    EXPECT(length.done.number == 0 && length.value == 43 + 4 * 39 + 11);
    tyn_formed read = tyn_read_either(two, length.value, places, 3072, species, 1024, rows, 2048);
    EXPECT(read.done.number == 0 && read.form == 2 && read.rule == 1 && read.job.atoms == 4 && read.job.pz == 1 && read.job.count == 1 && places[11] == 8 && species[3] == 0 && rows[1] == 2);
    EXPECT(tyn_to_one(two, length.value, one, sizeof one).value == 41 + 4 * 31 + 11 && memcmp(one, "01", 2) == 0);
    two[43 + 39 + 37] = '7';
    EXPECT(tyn_to_one(two, length.value, one, sizeof one).done.number == TYN_TYPED && tyn_to_one(two, length.value, one, sizeof one).done.place == 1);
    EXPECT(tyn_read_either(two, length.value, places, 3072, species, 1024, rows, 2048).done.number == 0 && species[1] == 7);
    two[41] = '2';
    EXPECT(tyn_to_one(two, length.value, one, sizeof one).done.number == TYN_TYPED && tyn_to_one(two, length.value, one, sizeof one).done.place == 0xffffffff);
    EXPECT(tyn_read_either(two, length.value, places, 3072, species, 1024, rows, 2048).rule == 2);
    length = tyn_solve_either(two, length.value, out, sizeof out);
    EXPECT(length.done.number == 0 && length.value == strlen(answer) && memcmp(out, answer, strlen(answer)) == 0);
}

int main(void)
{
    helpers_and_cells();
    sums();
    lists();
    desks();
    settings();
    whole_numbers();
    puts(bad ? "not as expected" : "as expected");
    return bad;
}
