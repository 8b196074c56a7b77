//! Sheets through the sheet's judge: to the images that they give.

use crate::image::Image;
use crate::sheet::judge::judge;
use crate::sheet::record::{Record, MOST_ROOM, PLACES};

/// The image of a sheet, where so much is lent that no sheet needs more; none
/// where it is refused.
pub fn translated(text: impl Into<Vec<u8>>) -> Option<Image> {
    let listing = judge(&Record::new(text, PLACES, MOST_ROOM)).ok()?;
    Some(Image {
        start: listing[0].address,
        words: listing.into_iter().flat_map(|line| line.words).collect(),
    })
}

/// Stops unless the sheet of an image gives start and image again.
pub fn check(image: &Image, text: &str) {
    let back = translated(text).expect("the sheet of an image is accepted");
    assert_eq!(&back, image, "{text}");
}
