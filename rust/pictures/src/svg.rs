//! The few shapes of a picture, as SVG.

/// A picture of this size.
pub fn document((width, height): (f64, f64), shapes: &str) -> String {
    format!(
        "<svg xmlns=\"http://www.w3.org/2000/svg\" width=\"{width}\" height=\"{height}\" \
         font-family=\"sans-serif\" font-size=\"13\">\n\
         <rect width=\"100%\" height=\"100%\" fill=\"white\"/>\n{shapes}</svg>\n",
    )
}

/// A line that ends in an arrow's head.
pub fn arrow((x, y): (f64, f64), (to_x, to_y): (f64, f64), colour: &str) -> String {
    let length = (to_x - x).hypot(to_y - y);
    let (along_x, along_y) = ((to_x - x) / length * 7.0, (to_y - y) / length * 7.0);
    let head = |side: f64| {
        let (tip_x, tip_y) = (to_x - along_x, to_y - along_y);
        format!("{:.1},{:.1}", tip_x + side * along_y, tip_y - side * along_x)
    };
    format!(
        "<line x1=\"{x:.1}\" y1=\"{y:.1}\" x2=\"{to_x:.1}\" y2=\"{to_y:.1}\" \
         stroke=\"{colour}\"/>\n<polygon points=\"{to_x:.1},{to_y:.1} {} {}\" fill=\"{colour}\"/>\n",
        head(0.4),
        head(-0.4),
    )
}

/// A box around a point, with a line of text in it.
pub fn named((x, y): (f64, f64), (width, height): (f64, f64), fill: &str, words: &str) -> String {
    let corner = (x - width / 2.0, y - height / 2.0);
    format!(
        "<rect x=\"{:.1}\" y=\"{:.1}\" width=\"{width:.1}\" height=\"{height:.1}\" rx=\"4\" \
         fill=\"{fill}\" stroke=\"#456\"/>\n{}",
        corner.0,
        corner.1,
        text((x, y + 4.5), "middle", words),
    )
}

/// A line of text that starts at a point or has it in its middle.
pub fn text((x, y): (f64, f64), anchor: &str, words: &str) -> String {
    format!("<text x=\"{x:.1}\" y=\"{y:.1}\" text-anchor=\"{anchor}\">{words}</text>\n")
}
