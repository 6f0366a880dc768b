//! The plot: a panel for each workload, with the cost of a run over n, both axes logarithmic.

use crate::measure::{groups, Measured};

const COLUMNS: usize = 4;
const PANEL: (f64, f64) = (240.0, 190.0);
const TOP: f64 = 40.0;
/// Where a panel's axes lie within it: left, top, width, height.
const AXES: (f64, f64, f64, f64) = (50.0, 24.0, 175.0, 125.0);
/// The implementations in the order of their costs, each with its colour and its dashes.
const LINES: [(&str, &str, &str); 3] = [
    ("proved (solid)", "#1b6ca8", ""),
    ("stepping (dashed)", "#c0392b", "5 4"),
    ("shortcuts (dotted)", "#2e7d32", "1 3"),
];

/// The plot as SVG.
pub fn svg(measured: &[Measured]) -> String {
    let panels: Vec<&[Measured]> = groups(measured).filter(|group| group.len() > 1).collect();
    let rows = panels.len().div_ceil(COLUMNS);
    let (width, height) = (COLUMNS as f64 * PANEL.0 + 24.0, rows as f64 * PANEL.1 + TOP);
    let mut svg = format!(
        "<svg xmlns=\"http://www.w3.org/2000/svg\" width=\"{width}\" height=\"{height}\" \
         font-family=\"sans-serif\" font-size=\"11\">\n\
         <rect width=\"100%\" height=\"100%\" fill=\"white\"/>\n",
    );
    svg += &text((12.0, 22.0), "ns a run over n:", "black");
    for (i, (name, colour, _)) in LINES.into_iter().enumerate() {
        svg += &text((110.0 + 120.0 * i as f64, 22.0), name, colour);
    }
    for (i, group) in panels.iter().enumerate() {
        let (column, row) = ((i % COLUMNS) as f64, (i / COLUMNS) as f64);
        svg += &panel(group, (column * PANEL.0, row * PANEL.1 + TOP));
    }
    svg + "</svg>\n"
}

fn panel(group: &[Measured], corner: (f64, f64)) -> String {
    let axes = Axes::new(group, corner);
    let points = |which: usize| {
        let point = |one: &Measured| axes.at(one.workload.n as f64, one.costs()[which]);
        group.iter().map(point).collect::<Vec<_>>()
    };
    let lines = LINES.iter().enumerate();
    let lines = lines.map(|(i, (_, colour, dashes))| line(&points(i), colour, dashes));
    text((axes.left, axes.top - 8.0), group[0].workload.name, "black")
        + &axes.grid(group)
        + &lines.collect::<String>()
}

/// A panel's axes: where they lie, and the logarithms at which they start and end.
struct Axes {
    left: f64,
    top: f64,
    n: (f64, f64),
    cost: (f64, f64),
}

impl Axes {
    fn new(group: &[Measured], corner: (f64, f64)) -> Self {
        let span = |values: &mut dyn Iterator<Item = f64>| {
            let (low, high) = values.fold((f64::INFINITY, 0.0f64), |(low, high), value| {
                (low.min(value.log10()), high.max(value.log10()))
            });
            (low, high.max(low + 0.1))
        };
        let n = span(&mut group.iter().map(|one| one.workload.n as f64));
        let cost = span(&mut group.iter().flat_map(Measured::costs));
        let (left, top) = (corner.0 + AXES.0, corner.1 + AXES.1);
        Axes { left, top, n, cost: (cost.0.floor(), cost.1.ceil()) }
    }

    fn at(&self, n: f64, cost: f64) -> (f64, f64) {
        let part = |value: f64, (low, high): (f64, f64)| (value.log10() - low) / (high - low);
        (self.left + AXES.2 * part(n, self.n), self.top + AXES.3 * (1.0 - part(cost, self.cost)))
    }

    /// A line for each size and for each power of ten of the cost, with numbers at the ends.
    fn grid(&self, group: &[Measured]) -> String {
        let mut svg = String::new();
        let (low, high) = (10f64.powf(self.cost.0), 10f64.powf(self.cost.1));
        for (i, one) in group.iter().enumerate() {
            let n = one.workload.n as f64;
            svg += &line(&[self.at(n, low), self.at(n, high)], "#ddd", "");
            if i == 0 || i == group.len() - 1 {
                let (x, y) = self.at(n, low);
                svg += &text((x - 8.0, y + 14.0), &n.to_string(), "black");
            }
        }
        let ends = (10f64.powf(self.n.0), 10f64.powf(self.n.1));
        for power in self.cost.0 as i32..=self.cost.1 as i32 {
            let cost = 10f64.powi(power);
            svg += &line(&[self.at(ends.0, cost), self.at(ends.1, cost)], "#ddd", "");
            let (x, y) = self.at(ends.0, cost);
            svg += &text((x - 34.0, y + 4.0), &format!("1e{power}"), "black");
        }
        svg
    }
}

fn line(points: &[(f64, f64)], colour: &str, dashes: &str) -> String {
    let points: Vec<String> = points.iter().map(|(x, y)| format!("{x:.1},{y:.1}")).collect();
    format!(
        "<polyline points=\"{}\" fill=\"none\" stroke=\"{colour}\" stroke-width=\"1.5\" \
         stroke-dasharray=\"{dashes}\"/>\n",
        points.join(" "),
    )
}

fn text((x, y): (f64, f64), words: &str, colour: &str) -> String {
    format!("<text x=\"{x:.1}\" y=\"{y:.1}\" fill=\"{colour}\">{words}</text>\n")
}
