//! The crates of `crates.txt` in rows: each below all that it builds on.

use crate::svg;

const BOX: (f64, f64) = (104.0, 28.0);
const GAP: (f64, f64) = (22.0, 46.0);
/// The kit's libraries are not drawn.
const KIT: [&str; 2] = ["io", "arrayvec"];

/// A crate and the crates that it builds on, as places in the list.
pub struct Crate<'a> {
    pub name: &'a str,
    below: Vec<usize>,
}

/// The crates that a text of the form of `crates.txt` lists.
pub fn listed(text: &str) -> Vec<Crate<'_>> {
    let mut crates: Vec<Crate> = Vec::new();
    for line in text.lines().filter(|line| !line.starts_with('#')) {
        let Some((name, needs)) = line.split_once(':') else { continue };
        // A static library has a word behind its name.
        let name = name.split_whitespace().next().unwrap_or_default();
        let place = |need| {
            let found = crates.iter().position(|one| one.name == need);
            found.unwrap_or_else(|| panic!("{name} builds on {need}, which no line before it has"))
        };
        let below = needs.split_whitespace().filter(|need| !KIT.contains(need)).map(place);
        let below = below.collect();
        crates.push(Crate { name, below });
    }
    crates
}

/// Whether crate `i` builds on crate `j`, at once or through others.
fn builds_on(crates: &[Crate], i: usize, j: usize) -> bool {
    crates[i].below.iter().any(|&k| k == j || builds_on(crates, k, j))
}

/// What a crate builds on, but for what another of these already builds on.
fn drawn(crates: &[Crate], i: usize) -> Vec<usize> {
    let below = &crates[i].below;
    let through_another = |j: usize| below.iter().any(|&k| builds_on(crates, k, j));
    below.iter().copied().filter(|&j| !through_another(j)).collect()
}

/// The rows, from the one that builds on nothing.
fn rows(crates: &[Crate]) -> Vec<Vec<usize>> {
    let mut depth = vec![0; crates.len()];
    for i in 0..crates.len() {
        depth[i] = crates[i].below.iter().map(|&j| depth[j] + 1).max().unwrap_or(0);
    }
    let deepest = depth.iter().copied().max().unwrap_or(0);
    (0..=deepest).map(|d| (0..crates.len()).filter(|&i| depth[i] == d).collect()).collect()
}

/// Where each crate's box has its middle. In a row, crates stand in the order of the middles of what
/// they build on; rows stand aside of each other, so that a line passes by the boxes between.
fn places(crates: &[Crate], width: f64) -> Vec<(f64, f64)> {
    let mut places = vec![(0.0, 0.0); crates.len()];
    for (depth, mut row) in rows(crates).into_iter().enumerate() {
        let wanted = |i: usize| {
            let over = drawn(crates, i);
            let sum: f64 = over.iter().map(|&j| places[j].0).sum();
            sum / over.len().max(1) as f64
        };
        row.sort_by(|&i, &j| wanted(i).total_cmp(&wanted(j)));
        let step = ((width - 2.0 * GAP.0) / row.len() as f64).min(2.0 * (BOX.0 + GAP.0));
        let aside = if depth % 2 == 0 { GAP.0 } else { -GAP.0 };
        let start = (width - step * (row.len() - 1) as f64) / 2.0 + aside;
        for (k, &i) in row.iter().enumerate() {
            places[i] = (start + step * k as f64, 30.0 + depth as f64 * (BOX.1 + GAP.1));
        }
    }
    places
}

/// The picture's size and shapes.
pub fn shapes(crates: &[Crate]) -> ((f64, f64), String) {
    let widest = rows(crates).iter().map(Vec::len).max().unwrap_or(1).max(5);
    let width = widest as f64 * (BOX.0 + GAP.0) + 2.0 * GAP.0;
    let places = places(crates, width);
    let mut shapes = String::new();
    for i in 0..crates.len() {
        for j in drawn(crates, i) {
            let ((x, y), (to_x, to_y)) = (places[i], places[j]);
            shapes += &svg::arrow((x, y - BOX.1 / 2.0), (to_x, to_y + BOX.1 / 2.0), "#999");
        }
    }
    for (one, &place) in crates.iter().zip(&places) {
        shapes += &svg::named(place, BOX, "#e8f1f8", one.name);
    }
    let height = rows(crates).len() as f64 * (BOX.1 + GAP.1);
    ((width, height), shapes)
}
