//! Extended XYZ: a file's last frame is read, frames are written.
//!
//! A frame is a line with the number of atoms, a line of `key=value` pairs and a line for each atom:
//!
//! ```text
//! 2
//! Lattice="12 0 0 0 12 0 0 0 12" Properties=species:S:1:pos:R:3:momenta:R:3 pbc="T T F"
//! Ar 0.0 0.0 0.0 0.1 0.0 0.0
//! Ar 3.8 0.0 0.0 0.0 0.2 0.0
//! ```
//!
//! Read are Lattice (the vectors one after the other), pbc (all T where there is a Lattice and no pbc) and of the columns that Properties names `species`
//! (or `Z`) and `pos`, and where they are given `masses`, `initial_charges` (or `charge`), `momenta` as ASE has them (in the root of amu eV) or `velo` (Å/fs).
//! Other keys and columns are passed over. Without Properties a line is a symbol and three coordinates. Every frame of a file must be whole; the last one is
//! taken, as ASE does.
use tyngyrlak::{units, Lattice};

/// The elements by number, with the masses (amu) of IUPAC's table of 2016, as ASE has them. 0 is no element.
#[rustfmt::skip]
const ELEMENTS: [(&str, f64); 119] = [
    ("X", 1.0), ("H", 1.008), ("He", 4.002602), ("Li", 6.94), ("Be", 9.0121831), ("B", 10.81), ("C", 12.011), ("N", 14.007), ("O", 15.999),
    ("F", 18.998403163), ("Ne", 20.1797), ("Na", 22.98976928), ("Mg", 24.305), ("Al", 26.9815385), ("Si", 28.085), ("P", 30.973761998), ("S", 32.06),
    ("Cl", 35.45), ("Ar", 39.948), ("K", 39.0983), ("Ca", 40.078), ("Sc", 44.955908), ("Ti", 47.867), ("V", 50.9415), ("Cr", 51.9961),
    ("Mn", 54.938044), ("Fe", 55.845), ("Co", 58.933194), ("Ni", 58.6934), ("Cu", 63.546), ("Zn", 65.38), ("Ga", 69.723), ("Ge", 72.63),
    ("As", 74.921595), ("Se", 78.971), ("Br", 79.904), ("Kr", 83.798), ("Rb", 85.4678), ("Sr", 87.62), ("Y", 88.90584), ("Zr", 91.224),
    ("Nb", 92.90637), ("Mo", 95.95), ("Tc", 97.90721), ("Ru", 101.07), ("Rh", 102.9055), ("Pd", 106.42), ("Ag", 107.8682), ("Cd", 112.414),
    ("In", 114.818), ("Sn", 118.71), ("Sb", 121.76), ("Te", 127.6), ("I", 126.90447), ("Xe", 131.293), ("Cs", 132.90545196), ("Ba", 137.327),
    ("La", 138.90547), ("Ce", 140.116), ("Pr", 140.90766), ("Nd", 144.242), ("Pm", 144.91276), ("Sm", 150.36), ("Eu", 151.964), ("Gd", 157.25),
    ("Tb", 158.92535), ("Dy", 162.5), ("Ho", 164.93033), ("Er", 167.259), ("Tm", 168.93422), ("Yb", 173.054), ("Lu", 174.9668), ("Hf", 178.49),
    ("Ta", 180.94788), ("W", 183.84), ("Re", 186.207), ("Os", 190.23), ("Ir", 192.217), ("Pt", 195.084), ("Au", 196.966569), ("Hg", 200.592),
    ("Tl", 204.38), ("Pb", 207.2), ("Bi", 208.9804), ("Po", 208.98243), ("At", 209.98715), ("Rn", 222.01758), ("Fr", 223.01974), ("Ra", 226.02541),
    ("Ac", 227.02775), ("Th", 232.0377), ("Pa", 231.03588), ("U", 238.02891), ("Np", 237.04817), ("Pu", 244.06421), ("Am", 243.06138),
    ("Cm", 247.07035), ("Bk", 247.07031), ("Cf", 251.07959), ("Es", 252.083), ("Fm", 257.09511), ("Md", 258.09843), ("No", 259.101), ("Lr", 262.11),
    ("Rf", 267.122), ("Db", 268.126), ("Sg", 271.134), ("Bh", 270.133), ("Hs", 269.1338), ("Mt", 278.156), ("Ds", 281.165), ("Rg", 281.166),
    ("Cn", 285.177), ("Nh", 286.182), ("Fl", 289.19), ("Mc", 289.194), ("Lv", 293.204), ("Ts", 293.208), ("Og", 294.214),];

/// One frame.
#[derive(Debug, Clone, Default, PartialEq)]
pub struct Frame {
    pub cell: Option<Lattice>,
    pub atoms: Vec<Atom>,
    /// Whether the file gives velocities.
    pub moving: bool,
}

/// An atom: number of its element, mass (amu), charge (e), position (Å) and velocity (Å/fs).
#[derive(Debug, Clone, Copy, Default, PartialEq)]
pub struct Atom {
    pub number: u32,
    pub mass: f64,
    pub charge: f64,
    pub position: [f64; 3],
    pub velocity: [f64; 3],
}

/// The symbol of an element, if the number has one.
pub fn symbol(number: u32) -> Option<&'static str> {
    ELEMENTS.get(number as usize).map(|e| e.0)
}

/// The last frame of a file, whose text this is. What is wrong is one line: the file's name, the line's number and what was expected there.
pub fn read(name: &str, text: &str) -> Result<Frame, String> {
    let lines: Vec<&str> = text.lines().collect();
    let end = lines.iter().rposition(|l| !l.trim().is_empty()).map_or(0, |at| at + 1);
    let wrong = |at: usize, what: String| format!("{name}, line {}: {what}", at + 1);
    let found = |at: usize| lines[..end].get(at).map_or("the end of the file".into(), |l| format!("`{}`", l.trim()));
    let mut at = 0;
    loop {
        let count = lines[..end].get(at).and_then(|l| l.trim().parse::<usize>().ok());
        let count = count.ok_or_else(|| wrong(at, format!("expected the number of atoms, found {}", found(at))))?;
        if end - at - 1 < 1 {
            return Err(wrong(at + 1, "expected a line of key=value pairs, found the end of the file".into()));
        }
        let head = Head::of(lines[at + 1]).map_err(|e| wrong(at + 1, e))?;
        let first = at + 2;
        let mut atoms = Vec::new();
        for k in first..first.saturating_add(count) {
            let line = lines[..end].get(k).ok_or_else(|| wrong(k, format!("expected atom {} of {count}, found the end of the file", k - first + 1)))?;
            atoms.push(head.atom(line).map_err(|e| wrong(k, e))?);
        }
        at = first + count;
        if at >= end {
            return Ok(Frame { cell: head.cell, atoms, moving: head.moving() });
        }
    }
}

/// What a frame's second line says.
struct Head {
    cell: Option<Lattice>,
    columns: Vec<Column>,
}

/// Words of a line that belong together: their name, their kind (S, R, I or L), the first one and how many.
struct Column {
    name: String,
    kind: char,
    first: usize,
    count: usize,
}

impl Head {
    fn of(line: &str) -> Result<Head, String> {
        let pairs = pairs(line);
        let value = |key: &str| pairs.iter().rev().find(|(k, _)| k == key).map(|(_, v)| v.as_str());
        let lattice = value("Lattice").map(|v| numbers::<9>(v).ok_or(format!("expected nine numbers in Lattice, found `{v}`"))).transpose()?;
        let periodic = value("pbc").map(|v| flags(v).ok_or(format!("expected three of T and F in pbc, found `{v}`"))).transpose()?;
        if lattice.is_none() && periodic.is_some_and(|p| p.contains(&true)) {
            return Err("expected a Lattice, since an axis is periodic".into());
        }
        let cell = lattice.map(|[ax, ay, az, bx, by, bz, cx, cy, cz]| Lattice {
            a: [ax, ay, az],
            b: [bx, by, bz],
            c: [cx, cy, cz],
            periodic: periodic.unwrap_or([true; 3]),
        });
        let columns = columns(value("Properties").unwrap_or("species:S:1:pos:R:3"))?;
        let head = Head { cell, columns };
        if head.column("pos", 'R', 3).is_none() || (head.column("species", 'S', 1).is_none() && head.column("Z", 'I', 1).is_none()) {
            return Err("expected species:S:1 (or Z:I:1) and pos:R:3 in Properties".into());
        }
        Ok(head)
    }

    fn column(&self, name: &str, kind: char, count: usize) -> Option<usize> {
        self.columns.iter().find(|c| c.name == name && c.kind == kind && c.count == count).map(|c| c.first)
    }

    fn moving(&self) -> bool {
        self.column("momenta", 'R', 3).or(self.column("velo", 'R', 3)).is_some()
    }

    fn atom(&self, line: &str) -> Result<Atom, String> {
        let words: Vec<&str> = line.split_whitespace().collect();
        let wide = self.columns.last().map_or(0, |c| c.first + c.count);
        if words.len() != wide {
            return Err(format!("expected {wide} words, as Properties says, found {}", words.len()));
        }
        let one = |at: usize| number(words[at]).ok_or(format!("expected a finite number, found `{}`", words[at]));
        let three = |at: usize| Ok::<_, String>([one(at)?, one(at + 1)?, one(at + 2)?]);
        let number = match (self.column("species", 'S', 1), self.column("Z", 'I', 1)) {
            (Some(at), _) => {
                ELEMENTS.iter().position(|e| e.0.eq_ignore_ascii_case(words[at])).ok_or(format!("expected the symbol of an element, found `{}`", words[at]))?
            }
            (None, Some(at)) => words[at].parse().ok().filter(|&z| z < ELEMENTS.len()).ok_or(format!("expected 0 to 118, found `{}`", words[at]))?,
            (None, None) => 0,
        };
        let mass = self.column("masses", 'R', 1).map_or(Ok(ELEMENTS[number].1), one)?;
        if mass <= 0.0 {
            return Err(format!("expected a mass above 0, found {mass}"));
        }
        let charge = self.column("initial_charges", 'R', 1).or(self.column("charge", 'R', 1)).map_or(Ok(0.0), one)?;
        let velocity = match (self.column("momenta", 'R', 3), self.column("velo", 'R', 3)) {
            (Some(at), _) => three(at)?.map(|p| p / mass * units::FORCE_TO_ACCEL.sqrt()),
            (None, Some(at)) => three(at)?,
            (None, None) => [0.0; 3],
        };
        let position = three(self.column("pos", 'R', 3).unwrap_or(0))?;
        Ok(Atom { number: number as u32, mass, charge, position, velocity })
    }
}

fn columns(text: &str) -> Result<Vec<Column>, String> {
    let words: Vec<&str> = text.split(':').collect();
    let mut first = 0;
    let mut found = Vec::new();
    for c in words.chunks(3) {
        let &[name, kind, count] = c else { return Err(format!("expected name:kind:count in Properties, found `{}`", c.join(":"))) };
        let kind = ["S", "R", "I", "L"].iter().find(|&&k| k == kind).and_then(|k| k.chars().next());
        // a count of more words than any line has is a mistake, and would not fit further down
        match (kind, count.parse::<usize>()) {
            (Some(kind), Ok(count @ 1..=1000)) => {
                found.push(Column { name: name.into(), kind, first, count });
                first += count;
            }
            _ => return Err(format!("expected a kind of S, R, I, L and a count of columns in Properties, found `{}`", c.join(":"))),
        }
    }
    Ok(found)
}

/// The `key=value` pairs of a line. A value may stand in quotes or brackets; a key without a value is T.
fn pairs(line: &str) -> Vec<(String, String)> {
    let mut found: Vec<(String, Option<String>)> = vec![(String::new(), None)];
    let (mut close, mut escaped) = (None, false);
    for c in line.trim().chars() {
        let (key, value) = found.last_mut().expect("there is one");
        let valued = value.is_some();
        let word = value.as_mut().unwrap_or(key);
        match c {
            _ if escaped => {
                word.push(c);
                escaped = false;
            }
            '\\' => escaped = true,
            _ if close == Some(c) => close = None,
            _ if close.is_some() => word.push(c),
            '"' | '\'' => close = Some(c),
            '{' => close = Some('}'),
            '[' => close = Some(']'),
            '=' if !valued => *value = Some(String::new()),
            _ if c.is_whitespace() => found.push((String::new(), None)),
            _ => word.push(c),
        }
    }
    found.into_iter().filter(|(k, v)| !k.is_empty() || v.is_some()).map(|(k, v)| (k, v.unwrap_or("T".into()))).collect()
}

fn number(word: &str) -> Option<f64> {
    word.parse::<f64>().ok().filter(|x| x.is_finite())
}

fn numbers<const N: usize>(text: &str) -> Option<[f64; N]> {
    let found: Vec<f64> = text.split_whitespace().map(number).collect::<Option<_>>()?;
    found.try_into().ok()
}

fn flags(text: &str) -> Option<[bool; 3]> {
    let one = |w| match w {
        "T" | "True" | "true" | "1" => Some(true),
        "F" | "False" | "false" | "0" => Some(false),
        _ => None,
    };
    let found: Vec<bool> = text.split_whitespace().map(one).collect::<Option<_>>()?;
    found.try_into().ok()
}

/// A frame as text, with what else its second line is to say (`step=100 time=500`). Every number is written so that it is read back to the bit; momenta are
/// ASE's. Charges are a column where there are any.
pub fn written(cell: Option<&Lattice>, atoms: &[Atom], more: &str) -> String {
    let mut out = format!("{}\n", atoms.len());
    let charged = atoms.iter().any(|a| a.charge != 0.0);
    if let Some(c) = cell {
        let vectors: Vec<String> = [c.a, c.b, c.c].iter().flatten().map(|&x| shown(x)).collect();
        out += &format!("Lattice=\"{}\" ", vectors.join(" "));
    }
    let flag = |k: usize| if cell.is_some_and(|c| c.periodic[k]) { "T" } else { "F" };
    let charges = if charged { ":initial_charges:R:1" } else { "" };
    out += &format!("Properties=species:S:1:pos:R:3:masses:R:1{charges}:momenta:R:3 pbc=\"{} {} {}\" {more}\n", flag(0), flag(1), flag(2));
    for a in atoms {
        let momentum = a.velocity.map(|v| a.mass * v / units::FORCE_TO_ACCEL.sqrt());
        let charge = charged.then_some(a.charge);
        let words = a.position.into_iter().chain([a.mass]).chain(charge).chain(momentum);
        out += symbol(a.number).unwrap_or("X");
        for x in words {
            out += " ";
            out += &shown(x);
        }
        out += "\n";
    }
    out
}

/// The shortest digits that are read back to the same float, in plain or in powers of ten.
pub fn shown(x: f64) -> String {
    if x == 0.0 || (1e-5..1e15).contains(&x.abs()) {
        format!("{x}")
    } else {
        format!("{x:e}")
    }
}
