//! PNG pictures made for the tests.
#![allow(dead_code)] // each test file uses a part

use png::{chunk, BitDepth, ColorType, Encoder};

/// How a picture is laid out: its colour type and depth, its palette, and what is
/// transparent without a sample for it.
pub struct Layout<'a> {
    pub colours: ColorType,
    pub depth: BitDepth,
    pub palette: Option<&'a [u8]>,
    pub transparent: Option<&'a [u8]>,
}

impl Layout<'_> {
    pub fn plain(colours: ColorType, depth: BitDepth) -> Layout<'static> {
        Layout {
            colours,
            depth,
            palette: None,
            transparent: None,
        }
    }

    /// The PNG picture with these rows of samples, each row so many pixels wide.
    /// Samples of less than a byte are packed, from the left.
    pub fn painted(&self, width: usize, rows: &[Vec<u16>]) -> Vec<u8> {
        let mut png = Vec::new();
        let mut encoder = Encoder::new(&mut png, width as u32, rows.len() as u32);
        encoder.set_color(self.colours);
        encoder.set_depth(self.depth);
        if let Some(palette) = self.palette {
            encoder.set_palette(palette.to_vec());
        }
        if let Some(transparent) = self.transparent {
            encoder.set_trns(transparent.to_vec());
        }
        let packed: Vec<u8> = rows.iter().flat_map(|row| self.packed(row)).collect();
        let mut writer = encoder.write_header().unwrap();
        writer.write_image_data(&packed).unwrap();
        writer.finish().unwrap();
        png
    }

    fn packed(&self, row: &[u16]) -> Vec<u8> {
        let bits = self.depth as usize;
        if bits == 16 {
            return row.iter().flat_map(|sample| sample.to_be_bytes()).collect();
        }
        let byte = |samples: &[u16]| {
            let place = |at: usize| 8 - bits * (at + 1);
            let bits = |(at, sample): (usize, &u16)| sample << place(at);
            samples.iter().enumerate().map(bits).sum::<u16>() as u8
        };
        row.chunks(8 / bits).map(byte).collect()
    }
}

/// An RGBA picture, a byte a sample.
pub fn rgba(rows: &[Vec<[u8; 4]>]) -> Vec<u8> {
    let samples = |row: &Vec<[u8; 4]>| row.iter().flatten().map(|byte| u16::from(*byte)).collect();
    let samples: Vec<Vec<u16>> = rows.iter().map(samples).collect();
    Layout::plain(ColorType::Rgba, BitDepth::Eight).painted(rows[0].len(), &samples)
}

/// A chessboard of one colour, its upper left pixel painted.
pub fn chessboard(columns: usize, rows: usize) -> Vec<u8> {
    let pixel = |at: usize| match at % 2 {
        0 => [9, 9, 9, 255],
        _ => [0; 4],
    };
    let row = |y: usize| (0..columns).map(|x| pixel(x + y)).collect();
    rgba(&(0..rows).map(row).collect::<Vec<_>>())
}

/// A line of pixels, each of another colour.
pub fn colours(count: usize) -> Vec<u8> {
    let pixel = |at: usize| [(at / 256) as u8, (at % 256) as u8, 7, 255];
    rgba(&[(0..count).map(pixel).collect()])
}

/// A grey picture that says to be so wide and high, and has no pixels.
pub fn announced(width: u32, height: u32) -> Vec<u8> {
    let mut png = Vec::new();
    let encoder = Encoder::new(&mut png, width, height);
    let mut writer = encoder.write_header().unwrap();
    writer.write_chunk(chunk::IDAT, &[]).unwrap();
    drop(writer);
    png
}
