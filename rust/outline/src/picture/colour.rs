//! A colour for each film. From one to the next the hue goes round by the golden
//! angle, which keeps near numbers far apart; the lightness changes every eight.
//! No two films are alike.

/// The golden angle in hundredths of a degree, and the hue of film 0.
const STEP: usize = 13_751;
const FIRST: usize = 21_000;

/// The whole circle in hundredths of a degree.
const CIRCLE: usize = 36_000;

/// How many films in a row share a lightness.
const SHARED: usize = 8;

/// The lightnesses, and how strong all colours are.
const LIGHTNESS: [f64; 7] = [0.41, 0.33, 0.49, 0.29, 0.45, 0.37, 0.31];
const STRENGTH: f64 = 0.74;

/// The colour of a film, as SVG writes it.
pub fn of_film(film: u8) -> String {
    let turn = usize::from(film);
    let hue = (FIRST + turn * STEP) % CIRCLE;
    let lightness = LIGHTNESS[turn / SHARED % LIGHTNESS.len()];
    let [red, green, blue] = rgb(hue as f64 / 6_000.0, lightness);
    format!("#{:02x}{:02x}{:02x}", red, green, blue)
}

/// Red, green and blue of a hue, in sixths of the circle, and a lightness of at
/// most a half.
fn rgb(hue: f64, lightness: f64) -> [u8; 3] {
    let reach = lightness * STRENGTH;
    let channel = |shift: f64| {
        let from_peak = ((hue + shift) % 6.0 - 3.0).abs();
        let level = lightness + reach * (2.0 * (from_peak - 1.0).clamp(0.0, 1.0) - 1.0);
        (255.0 * level).round() as u8
    };
    [channel(0.0), channel(4.0), channel(2.0)]
}

#[cfg(test)]
mod tests {
    use super::*;
    use std::collections::BTreeSet;

    #[test]
    fn no_two_films_share_a_colour() {
        let colours: BTreeSet<String> = (0..=u8::MAX).map(of_film).collect();
        assert_eq!(colours.len(), 256);
    }

    #[test]
    fn hues_go_round() {
        assert_eq!(rgb(0.0, 0.5), [222, 33, 33]);
        assert_eq!(rgb(2.0, 0.5), [33, 222, 33]);
        assert_eq!(rgb(4.0, 0.5), [33, 33, 222]);
    }
}
