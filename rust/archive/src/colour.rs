//! A shade as a screen and a printer show it: CIE Lab under D65 to sRGB.
use std::fmt;

/// A colour of sRGB, the nearest by each channel where the shade has none.
#[derive(Clone, Copy, Debug, PartialEq, Eq)]
pub struct Colour {
    /// Red, green, blue.
    pub channels: [u8; 3],
    /// Whether the shade lies outside sRGB, so that a channel was cut off.
    pub is_clipped: bool,
}

/// X, Y and Z of the white under D65, where Y is 1.
const WHITE: [f64; 3] = [0.95047, 1.0, 1.08883];

/// From X, Y and Z to red, green and blue before their bending (IEC 61966-2-1).
const TO_SRGB: [[f64; 3]; 3] = [
    [3.2404542, -1.5371385, -0.4985314],
    [-0.9692660, 1.8760108, 0.0415560],
    [0.0556434, -0.2040259, 1.0572252],
];

/// A cube, and near black a straight line (CIE 15).
fn unbent(t: f64) -> f64 {
    const KNEE: f64 = 6.0 / 29.0;
    if t > KNEE {
        t.powi(3)
    } else {
        3.0 * KNEE * KNEE * (t - 4.0 / 29.0)
    }
}

/// X, Y and Z of L\*, a\* and b\*.
fn xyz([l, a, b]: [f64; 3]) -> [f64; 3] {
    let y = (l + 16.0) / 116.0;
    let bent = [y + a / 500.0, y, y - b / 200.0];
    [0, 1, 2].map(|i| WHITE[i] * unbent(bent[i]))
}

/// How sRGB bends a channel: a power, and near black a straight line, which goes on below it.
fn bent(channel: f64) -> f64 {
    if channel <= 0.003_130_8 {
        12.92 * channel
    } else {
        1.055 * channel.powf(1.0 / 2.4) - 0.055
    }
}

impl Colour {
    /// The colour of a shade in hundredths of L\*, a\* and b\*.
    pub fn of(shade: [i32; 3]) -> Colour {
        let xyz = xyz(shade.map(|hundredths| f64::from(hundredths) / 100.0));
        let channel = |row: [f64; 3]| row.iter().zip(xyz).map(|(m, c)| m * c).sum();
        let steps = TO_SRGB.map(|row| (255.0 * bent(channel(row))).round());
        Colour {
            channels: steps.map(|step| step.clamp(0.0, 255.0) as u8),
            is_clipped: steps.iter().any(|step| !(0.0..=255.0).contains(step)),
        }
    }
}

/// As style sheets spell it.
impl fmt::Display for Colour {
    fn fmt(&self, to: &mut fmt::Formatter) -> fmt::Result {
        let [red, green, blue] = self.channels;
        write!(to, "#{red:02x}{green:02x}{blue:02x}")
    }
}

#[cfg(test)]
mod tests {
    use super::*;

    fn shown(l: i32, a: i32, b: i32) -> (String, bool) {
        let colour = Colour::of([l, a, b]);
        (colour.to_string(), colour.is_clipped)
    }

    #[test]
    fn greys() {
        for (l, grey) in [
            (0, "#000000"),
            (110, "#040404"),
            (2_500, "#3b3b3b"),
            (5_000, "#777777"),
            (5_359, "#808080"),
            (7_500, "#b9b9b9"),
            (10_000, "#ffffff"),
        ] {
            assert_eq!(shown(l, 0, 0), (grey.to_string(), false), "{l}");
        }
    }

    /// The corners of sRGB from their Lab values, rounded to hundredths.
    #[test]
    fn corners() {
        for (shade, corner) in [
            ([5_324, 8_009, 6_720], "#ff0000"),
            ([8_773, -8_618, 8_318], "#00ff00"),
            ([3_230, 7_919, -10_786], "#0000ff"),
            ([9_714, -2_155, 9_448], "#ffff00"),
            ([9_111, -4_809, -1_413], "#00ffff"),
            ([6_032, 9_823, -6_082], "#ff00ff"),
        ] {
            let [l, a, b] = shade;
            assert_eq!(shown(l, a, b), (corner.to_string(), false));
        }
    }

    /// Colours by their names in CSS, from their Lab values, rounded to hundredths.
    #[test]
    fn named_colours() {
        for (shade, named) in [
            ([3_753, 4_969, 3_054], "#a52a2a"),  // brown
            ([1_586, 3_171, -4_957], "#191970"), // midnightblue
            ([7_082, 852, 6_876], "#daa520"),    // goldenrod
            ([5_153, -3_972, 2_005], "#2e8b57"), // seagreen
        ] {
            let [l, a, b] = shade;
            assert_eq!(shown(l, a, b), (named.to_string(), false));
        }
    }

    #[test]
    fn outside() {
        assert_eq!(shown(5_000, 12_700, 12_700), ("#ff0000".to_string(), true));
        assert_eq!(shown(5_000, -12_800, 0), ("#009b74".to_string(), true));
        assert!(shown(10_000, 200, 0).1 && shown(0, 0, 500).1);
    }
}
