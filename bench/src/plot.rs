//! How the cost of a call grows with the lists, for both sides, as a small SVG.
use crate::scripts::{on_regions, on_segments};
use crate::Work;
use std::fmt::Write;

type Measure<'a> = &'a mut dyn FnMut(&Work, &Work, u64) -> (f64, f64);

const WIDTH: f64 = 320.0;
const HEIGHT: f64 = 200.0;

/// One picture: lengths along, nanoseconds a line up, both from 0.
fn panel(out: &mut String, left: f64, title: &str, points: &[(u64, f64, f64)]) {
    let most_x = points.iter().map(|p| p.0).max().unwrap_or(1) as f64;
    let most_y = points.iter().map(|p| p.1.max(p.2)).fold(1.0, f64::max);
    let place = |n: u64, y: f64| (left + n as f64 / most_x * WIDTH, 40.0 + HEIGHT - y / most_y * HEIGHT);
    let _ = writeln!(out, "<text x=\"{left}\" y=\"24\">{title}</text>");
    let _ =
        writeln!(out, "<path d=\"M{left} 40V{0}H{1}\" fill=\"none\" stroke=\"#888\"/>", 40.0 + HEIGHT, left + WIDTH);
    let _ = writeln!(out, "<text x=\"{}\" y=\"52\" text-anchor=\"end\">{most_y:.0} ns</text>", left + WIDTH);
    let _ =
        writeln!(out, "<text x=\"{}\" y=\"{}\" text-anchor=\"end\">{most_x:.0}</text>", left + WIDTH, 56.0 + HEIGHT);
    for (colour, which) in [("#c33", 0), ("#36c", 1)] {
        let mut line = String::new();
        for (n, port, original) in points {
            let (x, y) = place(*n, if which == 0 { *port } else { *original });
            let _ = write!(line, "{x:.1},{y:.1} ");
        }
        let _ = writeln!(
            out,
            "<polyline points=\"{}\" fill=\"none\" stroke=\"{colour}\" stroke-width=\"2\"/>",
            line.trim_end()
        );
    }
}

pub fn growth(measure: Measure) -> String {
    let mut regions = Vec::new();
    for many in [10, 50, 100, 200, 400, 600, 800, 1000] {
        let (work, before, calls) = on_regions(many, 1000);
        let (port, original) = measure(&work, &before, calls);
        regions.push((many, port, original));
    }
    let mut segments = Vec::new();
    for many in [1, 8, 16, 24, 32, 40, 48, 56, 63] {
        let (work, before, calls) = on_segments(many, 1000);
        let (port, original) = measure(&work, &before, calls);
        segments.push((many, port, original));
    }
    let mut out = String::from("<svg xmlns=\"http://www.w3.org/2000/svg\" viewBox=\"0 0 760 290\" font-family=\"sans-serif\" font-size=\"12\">\n");
    panel(&mut out, 30.0, "an add or a remove, by records in the list", &regions);
    panel(&mut out, 400.0, "a map or an unmap, by segments in the list", &segments);
    out.push_str("<text x=\"30\" y=\"280\" fill=\"#c33\">port</text><text x=\"70\" y=\"280\" fill=\"#36c\">original</text>\n</svg>\n");
    out
}
