//! The images of accepted sheets: those of the stored list of sheets, and
//! random ones.

use std::ops::RangeInclusive;

use super::super::back::translated;
use super::super::case::Case;
use super::case;
use crate::image::Image;
use crate::random::Random;
use crate::sheet::generate::sheet;
use crate::sheet::list;

/// Random images: how many, of how many words.
const RANDOM: [(usize, RangeInclusive<usize>); 2] = [(150, 1..=120), (6, 500..=1_500)];

pub fn all(seed: u64, random: &mut Random) -> Vec<Case> {
    let stored = list::full(seed).into_iter();
    let stored = stored.filter_map(|record| translated(record.text));
    let images: Vec<Image> = stored.chain(sampled(random)).collect();
    images.iter().map(case).collect()
}

fn sampled(random: &mut Random) -> Vec<Image> {
    let mut found = Vec::new();
    for (count, words) in RANDOM {
        let images = std::iter::repeat_with(|| translated(sheet(random).text()));
        let fitting = images
            .flatten()
            .filter(|image| words.contains(&image.words.len()));
        found.extend(fitting.take(count));
    }
    found
}
