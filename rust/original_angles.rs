// For the tests and the bench, included where the original's `min_image`, `vec3`, `Lattice` and `Contribution` are in scope. The original has no cosine
// angles: this is its `HarmonicAngles::compute_all`, line by line, with the root left open, and an angle's energy and factor, which `of` gives of k, the
// row's second number and the cosine.
pub fn over_angles(
    triples: &[(usize, usize, usize)],
    rows: &[(f64, f64)],
    default: (f64, f64),
    p: &[[f64; 3]],
    cell: Option<&Lattice>,
    root: impl Fn(f64) -> f64,
    of: impl Fn(f64, f64, f64) -> (f64, f64),
) -> Contribution {
    let mut acc = Contribution::zeros(p.len());
    for (row, &(i, apex, k)) in triples.iter().enumerate() {
        let (strength, rest) = rows.get(row).copied().unwrap_or(default);
        let rij = min_image(vec3::sub(p[i], p[apex]), cell);
        let rkj = min_image(vec3::sub(p[k], p[apex]), cell);
        let lij = root(vec3::norm2(rij));
        let lkj = root(vec3::norm2(rkj));
        if lij < 1e-9 || lkj < 1e-9 {
            continue;
        }
        let c = (vec3::dot(rij, rkj) / (lij * lkj)).clamp(-1.0, 1.0);
        let (energy, coef) = of(strength, rest, c);
        acc.energy += energy;
        let fi = vec3::scale(vec3::sub(vec3::scale(rkj, 1.0 / (lij * lkj)), vec3::scale(rij, c / (lij * lij))), coef);
        let fk = vec3::scale(vec3::sub(vec3::scale(rij, 1.0 / (lij * lkj)), vec3::scale(rkj, c / (lkj * lkj))), coef);
        vec3::add_assign(&mut acc.forces[i], fi);
        vec3::add_assign(&mut acc.forces[k], fk);
        vec3::add_assign(&mut acc.forces[apex], vec3::scale(vec3::add(fi, fk), -1.0));
        acc.virial_from_pair(rij, fi);
        acc.virial_from_pair(rkj, fk);
    }
    acc
}

/// A cosine angle's energy and factor.
pub fn cosine(strength: f64, rest: f64, c: f64) -> (f64, f64) {
    let off = c - rest;
    (0.5 * strength * off * off, -(strength * off))
}
