//! An image as S-records, and the image that S-records give, each or its
//! refusal, as the change request has them.

use crate::image::Image;

/// No address is at or past it.
const ADDRESSES: u64 = 1 << 32;

/// The data bytes of a written record.
const DATA: usize = 32;

/// A refusal's number and its record counted from 1, 0 outside records.
#[derive(Debug, Clone, Copy, PartialEq, Eq)]
pub struct Refused {
    pub number: u32,
    pub line: usize,
}

/// A record of the form and of the right length.
struct Parsed {
    closing: bool,
    /// Count, address, data and checksum.
    bytes: Vec<u8>,
    /// The bytes of its address.
    wide: usize,
}

/// What the records so far have given.
#[derive(Default)]
struct Read {
    /// Where the first data record begins.
    start: Option<u64>,
    data: Vec<u8>,
    closed: bool,
}

fn unless(holds: bool, number: u32, line: usize) -> Result<(), Refused> {
    holds.then_some(()).ok_or(Refused { number, line })
}

/// The text of an image; 9, then 11.
pub fn write(image: &Image, lent: usize) -> Result<String, Refused> {
    unless(image.end() <= ADDRESSES, 9, 0)?;
    let text = text(image);
    unless(text.len() <= lent, 11, 0)?;
    Ok(text)
}

fn text(image: &Image) -> String {
    let bytes = image.bytes();
    let mut address = image.start;
    let mut text = String::new();
    for data in bytes.chunks(DATA) {
        text += &written('3', address, data);
        address = address.wrapping_add(data.len() as u32);
    }
    text + &written('7', image.start, &[])
}

fn written(kind: char, address: u32, data: &[u8]) -> String {
    let count = 4 + data.len() as u8 + 1;
    let mut bytes = vec![count];
    bytes.extend(address.to_be_bytes());
    bytes.extend(data);
    bytes.push(checksum(&bytes));
    let digits = bytes.iter().map(|byte| format!("{byte:02X}"));
    format!("S{kind}{}\n", digits.collect::<String>())
}

/// The ones' complement of the low byte of the sum.
fn checksum(bytes: &[u8]) -> u8 {
    let sum: u32 = bytes.iter().map(|byte| *byte as u32).sum();
    !(sum as u8)
}

/// The image of a text; 12, 13 and 14 record by record, then 11.
pub fn read(text: &[u8], lent: usize) -> Result<Image, Refused> {
    let mut read = Read::default();
    let mut next = 1;
    for record in text.split_inclusive(|byte| *byte == b'\n') {
        read.take(record, next)?;
        next += 1;
    }
    unless(read.closed, 12, next)?;
    let image = read.image();
    unless(image.words.len() <= lent, 11, 0)?;
    Ok(image)
}

impl Read {
    fn take(&mut self, text: &[u8], line: usize) -> Result<(), Refused> {
        unless(!self.closed, 12, line)?;
        let record = Parsed::of_text(text).ok_or(Refused { number: 12, line })?;
        unless(record.sums(), 13, line)?;
        unless(self.follows(&record), 14, line)?;
        self.start.get_or_insert(record.address());
        self.data.extend(record.data());
        self.closed = record.closing;
        Ok(())
    }

    /// Whether the record begins where the last ended and does not pass 2^32,
    /// or closes with the start; a first one may begin anywhere.
    fn follows(&self, record: &Parsed) -> bool {
        let address = record.address();
        if record.closing {
            return self.start.unwrap_or(address) == address;
        }
        let due = match self.start {
            Some(start) => start + self.data.len() as u64,
            None => address,
        };
        address == due && due + record.data().len() as u64 <= ADDRESSES
    }

    fn image(&self) -> Image {
        let words = self.data.chunks(2);
        let words = words.map(|word| u16::from_be_bytes([word[0], word[1]]));
        Image {
            start: self.start.unwrap_or_default() as u32,
            words: words.collect(),
        }
    }
}

impl Parsed {
    /// The record of a text that ends in LF, if its form and length are right
    /// and its data are whole words, none in a closing one.
    fn of_text(text: &[u8]) -> Option<Parsed> {
        let text = text.strip_suffix(b"\n")?.strip_prefix(b"S")?;
        let (kind, digits) = text.split_first()?;
        let (closing, wide) = match kind {
            b'1' => (false, 2),
            b'2' => (false, 3),
            b'3' => (false, 4),
            b'7' => (true, 4),
            b'8' => (true, 3),
            b'9' => (true, 2),
            _ => return None,
        };
        let bytes = pairs(digits)?;
        let count = *bytes.first()? as usize;
        let data = count.checked_sub(wide + 1)?;
        let fits = match closing {
            true => data == 0,
            false => data % 2 == 0,
        };
        let record = Parsed {
            closing,
            bytes,
            wide,
        };
        (fits && record.bytes.len() == 1 + count).then_some(record)
    }

    fn sums(&self) -> bool {
        let last = self.bytes.len() - 1;
        checksum(&self.bytes[..last]) == self.bytes[last]
    }

    fn address(&self) -> u64 {
        let bytes = self.bytes[1..1 + self.wide].iter();
        bytes.fold(0, |address, byte| address << 8 | *byte as u64)
    }

    fn data(&self) -> &[u8] {
        &self.bytes[1 + self.wide..self.bytes.len() - 1]
    }
}

/// The bytes of an even number of digits.
fn pairs(digits: &[u8]) -> Option<Vec<u8>> {
    let pairs = digits.chunks(2).map(|pair| match pair {
        [high, low] => Some(digit(*high)? << 4 | digit(*low)?),
        _ => None,
    });
    pairs.collect()
}

fn digit(byte: u8) -> Option<u8> {
    match byte {
        b'0'..=b'9' => Some(byte - b'0'),
        b'A'..=b'F' => Some(byte - b'A' + 10),
        _ => None,
    }
}
