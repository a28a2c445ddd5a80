//! The cells of a PNG picture. Each colour is a film, numbered in the order in
//! which the colours are met, row by row from the top; what is transparent is
//! none.

use std::collections::HashMap;

use png::{BitDepth, ColorType, Decoder, OutputInfo, Transformations};

/// What every PNG picture begins with.
const SIGNATURE: [u8; 8] = *b"\x89PNG\r\n\x1a\n";

/// The most pixels that are read.
const MOST_PIXELS: u64 = 4_194_304;

/// Whether these are the bytes of a PNG picture, by how they begin.
pub fn begins(bytes: &[u8]) -> bool {
    bytes.starts_with(&SIGNATURE)
}

/// The film of each pixel, or none: rows from the top down, each from the left.
///
/// # Errors
///
/// What is wrong with the picture, and where.
pub fn cells(bytes: &[u8]) -> Result<Vec<Vec<Option<u8>>>, String> {
    let image = Image::read(bytes)?;
    let mut films = Films::default();
    let mut rows = Vec::new();
    for (above, row) in image.rows().enumerate() {
        let mut cells = Vec::new();
        for (before, pixel) in row.enumerate() {
            let film = films.film(&pixel);
            let (row, column) = (above + 1, before + 1);
            let place = |fault| format!("row {}, column {}: {}", row, column, fault);
            cells.push(film.map_err(place)?);
        }
        rows.push(cells);
    }
    Ok(rows)
}

/// A picture as it is decoded: one, two, three or four samples a pixel, each of
/// one byte or two.
struct Image {
    samples: Vec<u8>,
    layout: OutputInfo,
}

impl Image {
    fn read(bytes: &[u8]) -> Result<Image, String> {
        let broken = |error| format!("a PNG picture that cannot be read: {}", error);
        let mut decoder = Decoder::new(bytes);
        decoder.set_transformations(Transformations::EXPAND);
        let size = decoder.read_header_info().map_err(broken)?.size();
        check_size(size)?;
        let mut reader = decoder.read_info().map_err(broken)?;
        let mut samples = vec![0; reader.output_buffer_size()];
        let layout = reader.next_frame(&mut samples).map_err(broken)?;
        if (layout.width, layout.height) != size {
            return Err("a PNG picture whose first frame is not all of it".to_string());
        }
        samples.truncate(layout.buffer_size());
        Ok(Image { samples, layout })
    }

    /// The pixels row by row.
    fn rows(&self) -> impl Iterator<Item = impl Iterator<Item = Pixel> + '_> + '_ {
        let bytes_each = match self.layout.bit_depth {
            BitDepth::Sixteen => 2,
            _ => 1,
        };
        let bytes_a_pixel = bytes_each * self.layout.color_type.samples();
        let colours = self.layout.color_type;
        let rows = self.samples.chunks_exact(self.layout.line_size);
        rows.map(move |row| {
            let pixels = row.chunks_exact(bytes_a_pixel);
            pixels.map(move |pixel| Pixel::of(pixel, bytes_each, colours))
        })
    }
}

/// Whether there are pixels, and not too many.
fn check_size((width, height): (u32, u32)) -> Result<(), String> {
    let size = format!("{} by {} pixels", width, height);
    match u64::from(width) * u64::from(height) {
        0 => Err(format!("a PNG picture of {}", size)),
        1..=MOST_PIXELS => Ok(()),
        _ => Err(format!("{}: {} are the most", size, MOST_PIXELS)),
    }
}

/// A pixel: its colour, and how much of it is there.
struct Pixel {
    colour: Colour,
    alpha: u16,
    /// How many bytes each of these numbers has.
    bytes_each: usize,
}

/// Red, green and blue; grey is as much of each.
type Colour = [u16; 3];

impl Pixel {
    fn of(bytes: &[u8], bytes_each: usize, colours: ColorType) -> Pixel {
        let opaque = greatest(bytes_each);
        let number = |bytes: &[u8]| {
            let digit = |number, byte: &u8| number << 8 | u16::from(*byte);
            bytes.iter().fold(0, digit)
        };
        let sample = |place| number(&bytes[bytes_each * place..bytes_each * (place + 1)]);
        let (colour, alpha) = match colours {
            // An indexed picture is decoded with its palette's colours.
            ColorType::Grayscale | ColorType::Indexed => ([sample(0); 3], opaque),
            ColorType::GrayscaleAlpha => ([sample(0); 3], sample(1)),
            ColorType::Rgb => ([0, 1, 2].map(sample), opaque),
            ColorType::Rgba => ([0, 1, 2].map(sample), sample(3)),
        };
        Pixel {
            colour,
            alpha,
            bytes_each,
        }
    }

    /// Its colour as a person writes it.
    fn shown(&self) -> String {
        let digits = 2 * self.bytes_each;
        let sample = |sample: &u16| format!("{:0digits$x}", sample, digits = digits);
        let samples: String = self.colour.iter().map(sample).collect();
        format!("#{}", samples)
    }
}

/// The greatest number of so many bytes, one or two.
fn greatest(bytes: usize) -> u16 {
    match bytes {
        1 => u8::MAX.into(),
        _ => u16::MAX,
    }
}

/// The films that the colours met so far have.
#[derive(Default)]
struct Films {
    known: HashMap<Colour, u8>,
}

impl Films {
    /// The film of a pixel; none where it is transparent.
    fn film(&mut self, pixel: &Pixel) -> Result<Option<u8>, String> {
        let opaque = greatest(pixel.bytes_each);
        if pixel.alpha == 0 {
            return Ok(None);
        }
        if pixel.alpha != opaque {
            let alpha = format!("alpha {} of {}", pixel.alpha, opaque);
            return Err(format!("a pixel that is partly transparent, {}", alpha));
        }
        if let Some(film) = self.known.get(&pixel.colour) {
            return Ok(Some(*film));
        }
        let next = self.known.len();
        let film = u8::try_from(next).map_err(|_| {
            let colour = pixel.shown();
            format!(
                "{} is colour number {}, and a sheet has 256 films",
                colour,
                next + 1
            )
        })?;
        self.known.insert(pixel.colour, film);
        Ok(Some(film))
    }
}
