//! The plot, as SVG: time and rows read against the radius, both axes by powers of ten.
use crate::contenders::{
    ALL_PAIRS, BLOCK_PRINTED, CONTENDERS, LIBRARY, SAME_CHECKS, SCORE_FIRST, SWEEP,
};
use crate::measure::Measured;
use crate::report::grouped;
use std::fmt::Write;

const TOP: f64 = 70.0;
const HEIGHT: f64 = 360.0;
const WIDTH: f64 = 400.0;
const LABEL_GAP: f64 = 17.0;
/// Left edges of the two panels.
const LEFT: [f64; 2] = [70.0, 730.0];

const SOLID: &str = "stroke-width='2'";
const DASHED: &str = "stroke-width='2' stroke-dasharray='6 4'";
/// Shows below a line that covers it.
const BROAD: &str = "stroke-width='7' stroke-opacity='0.35'";
const HEAD: &str = "\
<svg xmlns='http://www.w3.org/2000/svg' width='1320' height='490' viewBox='0 0 1320 490' \
font-family='DejaVu Sans, Helvetica, Arial, sans-serif' font-size='13' fill='#222'>
<rect width='1320' height='490' fill='white'/>
";

/// A line of the plot: (radius, value) at each place.
struct Series {
    name: String,
    colour: &'static str,
    stroke: &'static str,
    points: Vec<(f64, f64)>,
}

/// Where values fall in a panel.
struct Scale {
    left: f64,
    x: (f64, f64),
    y: (f64, f64),
}

impl Scale {
    /// Whole powers of ten around the values; the radii as they are.
    fn of(left: f64, series: &[Series]) -> Scale {
        let values = |of: fn(&(f64, f64)) -> f64| {
            let all = series.iter().flat_map(|s| s.points.iter().map(of));
            all.fold((f64::INFINITY, 0.0_f64), |(low, high), v| {
                (low.min(v), high.max(v))
            })
        };
        let (x, y) = (values(|p| p.0), values(|p| p.1));
        Scale {
            left,
            x: (x.0.log10(), x.1.log10()),
            y: (y.0.log10().floor(), y.1.log10().ceil()),
        }
    }

    fn x(&self, radius: f64) -> f64 {
        self.left + 12.0 + (WIDTH - 24.0) * (radius.log10() - self.x.0) / (self.x.1 - self.x.0)
    }

    fn y(&self, value: f64) -> f64 {
        TOP + HEIGHT * (self.y.1 - value.log10()) / (self.y.1 - self.y.0)
    }
}

fn text(svg: &mut String, (x, y): (f64, f64), anchor: &str, rest: &str, words: &str) {
    let _ = writeln!(
        svg,
        r#"<text x="{x:.1}" y="{y:.1}" text-anchor="{anchor}" {rest}>{words}</text>"#
    );
}

fn stroke(svg: &mut String, from: (f64, f64), to: (f64, f64), colour: &str) {
    let ((a, b), (c, d)) = (from, to);
    let _ = writeln!(
        svg,
        r#"<path d="M{a:.1} {b:.1}L{c:.1} {d:.1}" stroke="{colour}" fill="none"/>"#
    );
}

/// A power of ten, in words that fit beside an axis.
fn power(exponent: i32) -> String {
    if exponent >= 0 {
        grouped(10_u64.pow(exponent as u32))
    } else {
        format!(
            "{:.*}",
            exponent.unsigned_abs() as usize,
            10_f64.powi(exponent)
        )
    }
}

fn axes(svg: &mut String, scale: &Scale, radii: &[f64], title: &str) {
    let (left, bottom) = (scale.left, TOP + HEIGHT);
    text(
        svg,
        (left, TOP - 16.0),
        "start",
        r#"font-weight="bold""#,
        title,
    );
    for exponent in scale.y.0 as i32..=scale.y.1 as i32 {
        let y = scale.y(10_f64.powi(exponent));
        stroke(svg, (left, y), (left + WIDTH, y), "#ddd");
        text(svg, (left - 8.0, y + 4.0), "end", "", &power(exponent));
    }
    for &radius in radii {
        let x = scale.x(radius);
        stroke(svg, (x, bottom), (x, bottom + 5.0), "#333");
        text(
            svg,
            (x, bottom + 20.0),
            "middle",
            "",
            &grouped(radius as u64),
        );
    }
    stroke(svg, (left, bottom), (left + WIDTH, bottom), "#333");
    text(
        svg,
        (left + WIDTH / 2.0, bottom + 42.0),
        "middle",
        "",
        "radius, hundredths of a* and b*",
    );
}

fn curve(svg: &mut String, scale: &Scale, series: &Series) {
    let places: Vec<(f64, f64)> = series
        .points
        .iter()
        .map(|&(r, v)| (scale.x(r), scale.y(v)))
        .collect();
    let path: Vec<String> = places
        .iter()
        .map(|(x, y)| format!("{x:.1},{y:.1}"))
        .collect();
    let colour = series.colour;
    let _ = writeln!(
        svg,
        r#"<polyline points="{}" fill="none" stroke="{colour}" {}/>"#,
        path.join(" "),
        series.stroke
    );
    for (x, y) in places {
        let _ = writeln!(
            svg,
            r#"<circle cx="{x:.1}" cy="{y:.1}" r="3" fill="{colour}"/>"#
        );
    }
}

/// Heights for labels beside these ends, in the same order, none nearer to the next than a gap.
fn label_heights(ends: &[f64]) -> Vec<f64> {
    let mut order: Vec<usize> = (0..ends.len()).collect();
    order.sort_by(|&i, &j| ends[i].total_cmp(&ends[j]));
    let mut heights = ends.to_vec();
    for pair in order.windows(2) {
        heights[pair[1]] = heights[pair[1]].max(heights[pair[0]] + LABEL_GAP);
    }
    let over = order
        .last()
        .map_or(0.0, |&last| heights[last] - (TOP + HEIGHT - 6.0));
    if over > 0.0 {
        let mut limit = TOP + HEIGHT - 6.0;
        for &i in order.iter().rev() {
            heights[i] = heights[i].min(limit);
            limit = heights[i] - LABEL_GAP;
        }
    }
    heights
}

fn panel(svg: &mut String, left: f64, title: &str, series: &[Series]) {
    let scale = Scale::of(left, series);
    let radii: Vec<f64> = series[0].points.iter().map(|p| p.0).collect();
    axes(svg, &scale, &radii, title);
    let ends: Vec<f64> = series
        .iter()
        .map(|s| scale.y(s.points[s.points.len() - 1].1))
        .collect();
    let heights = label_heights(&ends);
    for ((s, end), height) in series.iter().zip(ends).zip(heights) {
        curve(svg, &scale, s);
        let x = left + WIDTH;
        stroke(svg, (x - 8.0, end), (x + 16.0, height), s.colour);
        text(
            svg,
            (x + 20.0, height + 4.0),
            "start",
            &format!(r#"fill="{}""#, s.colour),
            &s.name,
        );
    }
}

fn points(measured: &[Measured], value: impl Fn(&Measured) -> f64) -> Vec<(f64, f64)> {
    let point = |m: &Measured| (f64::from(m.case.asked.query.radius), value(m));
    measured.iter().map(point).collect()
}

fn time_series(measured: &[Measured]) -> Vec<Series> {
    let shown = [
        (ALL_PAIRS, "#777777"),
        (SWEEP, "#b07d00"),
        (SCORE_FIRST, "#a03a7a"),
        (BLOCK_PRINTED, "#00806a"),
        (SAME_CHECKS, "#d55e00"),
        (LIBRARY, "#0060a8"),
    ];
    let series = |(contender, colour): (usize, &'static str)| Series {
        name: match contender {
            SAME_CHECKS => "plain Rust, same checks".to_string(),
            _ => CONTENDERS[contender].name.to_string(),
        },
        colour,
        stroke: if contender == SAME_CHECKS {
            DASHED
        } else {
            SOLID
        },
        points: points(measured, |m| m.ms(contender)),
    };
    shown.map(series).into()
}

fn row_series(measured: &[Measured]) -> Vec<Series> {
    let deepest = |contender: usize| {
        points(measured, |m| {
            m.count(|s| s.outcomes[contender].deepest().into()) as f64
        })
    };
    let series = |name: &str, colour, stroke, points| Series {
        name: name.to_string(),
        colour,
        stroke,
        points,
    };
    vec![
        series("join first: all rows", "#777777", SOLID, deepest(ALL_PAIRS)),
        series("source's rule", "#00806a", BROAD, deepest(BLOCK_PRINTED)),
        series("library", "#0060a8", SOLID, deepest(LIBRARY)),
        series(
            "least sure reading",
            "#d55e00",
            DASHED,
            points(measured, |m| m.count(|s| s.least_sure.into()) as f64),
        ),
    ]
}

/// The plot of the radii's section.
pub fn svg(measured: &[Measured]) -> String {
    let mut svg = String::from(HEAD);
    let case = measured[0].case;
    let (f, t) = case.rows;
    let title = format!(
        "{} field rows, {} trim rows, uniform shades; k {}, block {}; medians of {} seeds",
        grouped(f.into()),
        grouped(t.into()),
        case.asked.query.k,
        case.asked.query.block,
        measured[0].seeds.len(),
    );
    text(
        &mut svg,
        (LEFT[0], 26.0),
        "start",
        r#"font-size="15""#,
        &title,
    );
    panel(
        &mut svg,
        LEFT[0],
        "Time of a whole query, ms",
        &time_series(measured),
    );
    panel(
        &mut svg,
        LEFT[1],
        "Rows read of the deeper table",
        &row_series(measured),
    );
    svg.push_str("</svg>\n");
    svg
}
