//! How many pairs sit at each distance, over many job sheets: reads them by name with progress shown, prints the table and draws it.
//!
//! ```text
//! cargo run --release --example shells -- [--width W] [--shells N] [--svg FILE] SHEET..
//! ```
//!
//! A pair's shell is the whole part of its squared distance over the width W; the last of the N shells takes all that lies further out. Without --shells
//! there are 32, without --width the shells reach the first sheet's radius. The picture goes to shells.svg, or to FILE. A sheet that is refused (docs/SHEET.md
//! says why) is named, adds nothing, and the run goes on. Distances are in the sheets' own unit.
use std::error::Error;
use std::f64::consts::PI;
use std::fmt::Write;
use std::io::IsTerminal;
use std::time::{Duration, Instant};
use tyngyrlak::*;

/// What the command line says.
struct Ask {
    width: Option<u64>,
    shells: usize,
    svg: String,
    sheets: Vec<String>,
}

fn main() -> Result<(), Box<dyn Error>> {
    let ask = ask(std::env::args().skip(1))?;
    let mut shells: Option<Shells> = None;
    let (mut radius, mut answered, mut refused) = (0, 0, 0);
    let mut progress = Progress::new(ask.sheets.len());
    for (at, name) in ask.sheets.iter().enumerate() {
        let bytes = std::fs::read(name).map_err(|e| format!("{name}: {e}"))?;
        let added = Snapshot::from_sheet(&bytes).and_then(|from| {
            let reach = (u64::from(from.frame.radius).pow(2) + 1).div_ceil(ask.shells as u64);
            shells.get_or_insert_with(|| Shells::new(ask.width.unwrap_or(reach), ask.shells)).add(&from).map(|_| from.frame.radius)
        });
        match added {
            Ok(r) => (radius, answered) = (r.max(radius), answered + 1),
            Err(e) => {
                progress.clear();
                eprintln!("{name}: {e}");
                refused += 1;
            }
        }
        progress.show(at + 1, shells.as_ref().map_or(0, Shells::sum));
    }
    progress.clear();
    let shells = shells.ok_or("no sheet could be read")?;
    let table = table(&shells, radius);
    println!("sheets {answered}, refused {refused}, pairs {}, width {}, radius {radius}", shells.sum(), shells.width());
    println!("{:>5} {:>12} {:>12} {:>20} {:>16}", "shell", "from", "to", "pairs", "per volume");
    for (k, s) in table.iter().enumerate() {
        println!("{k:>5} {:>12.4} {:>12.4} {:>20} {:>16.6e}", s.from, s.to, s.pairs, s.density());
    }
    let sheets = if answered == 1 { "1 sheet".into() } else { format!("{} sheets", grouped(answered)) };
    let title = format!("{} pairs within a distance of {radius}, from {sheets}", grouped(shells.sum()));
    std::fs::write(&ask.svg, picture(&table, &title)).map_err(|e| format!("{}: {e}", ask.svg))?;
    println!("drawn in {}", ask.svg);
    Ok(())
}

fn ask(mut words: impl Iterator<Item = String>) -> Result<Ask, Box<dyn Error>> {
    let mut ask = Ask { width: None, shells: 32, svg: "shells.svg".into(), sheets: Vec::new() };
    while let Some(word) = words.next() {
        let mut value = || words.next().ok_or(format!("{word} wants a value"));
        match word.as_str() {
            "--width" => ask.width = Some(value()?.parse().map_err(|_| "a width is a whole number")?),
            "--shells" => ask.shells = value()?.parse().map_err(|_| "--shells wants a whole number")?,
            "--svg" => ask.svg = value()?,
            _ if word.starts_with("--") => return Err(format!("{word} is none of --width, --shells, --svg").into()),
            _ => ask.sheets.push(word),
        }
    }
    match &ask {
        Ask { shells: 1..=4096, width: None | Some(1..), .. } if !ask.sheets.is_empty() => Ok(ask),
        _ => Err("shells [--width W] [--shells N] [--svg FILE] SHEET..: a width of 1 or more, 1 to 4,096 shells, at least one sheet".into()),
    }
}

/// A line on standard error that is written over, ten times a second; a line for each tenth of the sheets where standard error is a file.
struct Progress {
    all: usize,
    live: bool,
    last: Instant,
}

impl Progress {
    fn new(all: usize) -> Self {
        Self { all, live: std::io::stderr().is_terminal(), last: Instant::now() }
    }

    fn show(&mut self, done: usize, pairs: u128) {
        let due = if self.live { self.last.elapsed() > Duration::from_millis(100) } else { self.all >= 10 && done % (self.all / 10) == 0 };
        if due {
            self.last = Instant::now();
            let line = format!("{done} of {} sheets, {} pairs", self.all, grouped(pairs));
            if self.live {
                eprint!("\r\x1b[K{line}");
            } else {
                eprintln!("{line}");
            }
        }
    }

    fn clear(&self) {
        if self.live {
            eprint!("\r\x1b[K");
        }
    }
}

/// A shell's distances and pairs. No pair is further than the radius, so that is where the last shell ends.
struct Shell {
    from: f64,
    to: f64,
    pairs: u64,
}

impl Shell {
    /// Pairs by the volume between its two spheres; 0 where there is none.
    fn density(&self) -> f64 {
        let volume = 4.0 / 3.0 * PI * (self.to.powi(3) - self.from.powi(3));
        if volume > 0.0 {
            self.pairs as f64 / volume
        } else {
            0.0
        }
    }
}

fn table(shells: &Shells, radius: u32) -> Vec<Shell> {
    let bound = |k: usize| ((k as f64) * (shells.width() as f64)).sqrt().min(f64::from(radius));
    let last = shells.totals().len() - 1;
    let to = |k: usize| if k == last { f64::from(radius) } else { bound(k + 1) };
    shells.totals().iter().enumerate().map(|(k, &pairs)| Shell { from: bound(k), to: to(k), pairs }).collect()
}

/// 1234567 as 1,234,567.
fn grouped(n: impl ToString) -> String {
    let digits = n.to_string();
    let mut out = String::new();
    for (k, c) in digits.chars().enumerate() {
        if k > 0 && (digits.len() - k) % 3 == 0 {
            out.push(',');
        }
        out.push(c);
    }
    out
}

/// About five round steps up to a number.
fn step(most: f64) -> f64 {
    let rough = most / 5.0;
    let ten = 10f64.powf(rough.log10().floor());
    ten * [1.0, 2.0, 5.0, 10.0].into_iter().find(|m| m * ten >= rough).unwrap_or(10.0)
}

fn label(x: f64, step: f64) -> String {
    if x != 0.0 && !(1e-3..1e6).contains(&step) {
        return format!("{x:.1e}");
    }
    let digits = (-step.log10().floor()).max(0.0) as usize;
    if digits == 0 {
        grouped(x.round() as u64)
    } else {
        format!("{x:.digits$}")
    }
}

/// The counts on the left, the counts by volume on the right, both over the distance.
fn picture(table: &[Shell], title: &str) -> String {
    let mut svg = String::from(
        "<svg xmlns=\"http://www.w3.org/2000/svg\" viewBox=\"0 0 1120 460\" width=\"1120\" height=\"460\" font-family=\"sans-serif\" font-size=\"15\" \
         fill=\"#222\">\n<rect width=\"1120\" height=\"460\" fill=\"#fff\"/>\n",
    );
    let _ = writeln!(svg, "<text x=\"560\" y=\"34\" text-anchor=\"middle\" font-size=\"20\">{title}</text>");
    let counts: Vec<f64> = table.iter().map(|s| s.pairs as f64).collect();
    let densities: Vec<f64> = table.iter().map(Shell::density).collect();
    panel(&mut svg, 90.0, "pairs in a shell", "#2f6f9f", table, &counts);
    panel(&mut svg, 650.0, "pairs by the shell's volume (per unit³)", "#b5532b", table, &densities);
    svg + "</svg>\n"
}

/// One diagram whose axes cross at (left, 390): a bar for each shell, from its inner to its outer distance.
fn panel(svg: &mut String, left: f64, name: &str, color: &str, table: &[Shell], values: &[f64]) {
    const WIDE: f64 = 430.0;
    const HIGH: f64 = 300.0;
    const FOOT: f64 = 390.0;
    let far = table.last().map_or(1.0, |s| s.to).max(1.0);
    let most = values.iter().copied().fold(0.0, f64::max);
    let (across, up) = (step(far), step(if most > 0.0 { most } else { 1.0 }));
    let top = up * (most / up).ceil().max(1.0);
    let x = |d: f64| left + WIDE * d / far;
    let y = |v: f64| FOOT - HIGH * v / top;
    let _ = writeln!(svg, "<text x=\"{left:.1}\" y=\"72\" font-size=\"16\" fill=\"{color}\">{name}</text>");
    for k in 0..=(top / up).round() as usize {
        let v = k as f64 * up;
        let (right, at) = (left + WIDE, y(v));
        let _ = writeln!(svg, "<line x1=\"{left:.1}\" y1=\"{at:.1}\" x2=\"{right:.1}\" y2=\"{at:.1}\" stroke=\"#ddd\"/>");
        let _ = writeln!(svg, "<text x=\"{:.1}\" y=\"{:.1}\" text-anchor=\"end\">{}</text>", left - 8.0, at + 5.0, label(v, up));
    }
    for (s, &v) in table.iter().zip(values) {
        let (a, b) = (x(s.from), x(s.to));
        let _ = writeln!(
            svg,
            "<rect x=\"{a:.2}\" y=\"{:.2}\" width=\"{:.2}\" height=\"{:.2}\" fill=\"{color}\" stroke=\"#fff\" stroke-width=\"0.7\"/>",
            y(v),
            b - a,
            FOOT - y(v)
        );
    }
    let _ = writeln!(svg, "<line x1=\"{left:.1}\" y1=\"{FOOT}\" x2=\"{:.1}\" y2=\"{FOOT}\" stroke=\"#222\"/>", left + WIDE);
    let mut d = 0.0;
    while d <= far * 1.000001 {
        let _ = writeln!(svg, "<line x1=\"{0:.1}\" y1=\"{FOOT}\" x2=\"{0:.1}\" y2=\"{1:.1}\" stroke=\"#222\"/>", x(d), FOOT + 6.0);
        let _ = writeln!(svg, "<text x=\"{:.1}\" y=\"{:.1}\" text-anchor=\"middle\">{}</text>", x(d), FOOT + 24.0, label(d, across));
        d += across;
    }
    let _ = writeln!(svg, "<text x=\"{:.1}\" y=\"{:.1}\" text-anchor=\"middle\">distance (the sheets' unit)</text>", left + WIDE / 2.0, FOOT + 50.0);
}
