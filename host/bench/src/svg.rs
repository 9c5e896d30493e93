//! The few shapes that a plot is made of.
use std::fmt::Write;

pub struct Svg(String);

/// Where a text stands by its point.
#[derive(Clone, Copy)]
pub enum Anchor {
    Start,
    Middle,
    End,
}

pub type Point = (f64, f64);

impl Svg {
    pub fn new(width: f64, height: f64) -> Self {
        Self(format!(
            "<svg xmlns=\"http://www.w3.org/2000/svg\" viewBox=\"0 0 {width} {height}\" font-family=\"sans-serif\" font-size=\"11\">
<rect width=\"{width}\" height=\"{height}\" fill=\"#ffffff\"/>\n"
        ))
    }

    pub fn text(&mut self, (x, y): Point, anchor: Anchor, text: &str) {
        let anchor = match anchor {
            Anchor::Start => "start",
            Anchor::Middle => "middle",
            Anchor::End => "end",
        };
        let text = text.replace('&', "&amp;").replace('<', "&lt;");
        let _ = writeln!(
            self.0,
            "<text x=\"{x:.1}\" y=\"{y:.1}\" text-anchor=\"{anchor}\" fill=\"#222222\">{text}</text>"
        );
    }

    /// `dashes` is how long dashes are, 0 for none.
    pub fn line(&mut self, points: &[Point], colour: &str, dashes: u32) {
        let points: Vec<_> = points
            .iter()
            .map(|(x, y)| format!("{x:.1},{y:.1}"))
            .collect();
        let dashes = match dashes {
            0 => "none".into(),
            _ => dashes.to_string(),
        };
        let _ = writeln!(
            self.0,
            "<polyline points=\"{}\" fill=\"none\" stroke=\"{colour}\" stroke-width=\"1.5\" stroke-dasharray=\"{dashes}\"/>",
            points.join(" ")
        );
    }

    /// A filled dot, or a ring.
    pub fn dot(&mut self, (x, y): Point, colour: &str, filled: bool) {
        let fill = if filled { colour } else { "#ffffff" };
        let _ = writeln!(
            self.0,
            "<circle cx=\"{x:.1}\" cy=\"{y:.1}\" r=\"3.5\" fill=\"{fill}\" stroke=\"{colour}\"/>"
        );
    }

    pub fn end(self) -> String {
        self.0 + "</svg>\n"
    }
}

/// A logarithmic axis: values from `values.0` to `values.1` stand at
/// `places.0` to `places.1`; others at the nearer end.
#[derive(Clone, Copy)]
pub struct Axis {
    pub values: (f64, f64),
    pub places: (f64, f64),
}

impl Axis {
    pub fn place(&self, value: f64) -> f64 {
        let (low, high) = (self.values.0.ln(), self.values.1.ln());
        let part = ((value.ln() - low) / (high - low)).clamp(0.0, 1.0);
        self.places.0 + part * (self.places.1 - self.places.0)
    }

    /// The powers of ten on it.
    pub fn powers(&self) -> Vec<f64> {
        let powers = (-3..9).map(|power| 10f64.powi(power));
        let (low, high) = self.values;
        powers.filter(|it| (low..=high).contains(it)).collect()
    }
}

#[cfg(test)]
mod tests {
    use super::*;

    #[test]
    fn an_axis_is_logarithmic_and_ends() {
        let axis = Axis {
            values: (0.1, 1000.0),
            places: (100.0, 500.0),
        };
        let places = [0.1, 1.0, 1000.0, 0.001, 5000.0].map(|it| axis.place(it).round());
        assert_eq!(places, [100.0, 200.0, 500.0, 100.0, 500.0]);
        assert_eq!(axis.powers(), [0.1, 1.0, 10.0, 100.0, 1000.0]);
    }

    #[test]
    fn text_is_escaped() {
        let mut svg = Svg::new(10.0, 10.0);
        svg.text((1.0, 2.0), Anchor::End, "a < b & c");
        let text = "<text x=\"1.0\" y=\"2.0\" text-anchor=\"end\" fill=\"#222222\">a &lt; b &amp; c</text>";
        assert!(svg.end().contains(text));
    }
}
