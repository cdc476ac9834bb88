//! Images with a byte changed, with too few or too many bytes, or with a head that says something else than what follows.

use crate::generating::rolls::Size;
use crate::images::writing::put;
use crate::images::{ACCOUNT_BYTES, PARTICIPANT_BYTES, image_length};

use super::{Image, changed};

/// Every byte in turn, each with its lowest, its highest and all its bits turned over.
pub fn flipped(image: &[u8]) -> Vec<Image> {
    let flips = (0..image.len()).flat_map(|at| [0x01, 0x80, 0xff].map(|bits| (at, bits)));
    flips
        .map(|(at, bits)| changed(image, |copy| copy[at] ^= bits))
        .collect()
}

/// An image as it is, and one that states the length that it has.
fn stating_and_not(image: Image) -> [Image; 2] {
    let stating = changed(&image, state_given_length);
    [image, stating]
}

/// Makes an image state the length that it has, where it has the bytes to state it.
fn state_given_length(image: &mut Image) {
    let given = image.len() as u64;
    if image.len() >= 5 {
        put(image, 1, 4, given);
    }
}

/// The first bytes of an image, one to all but one of them.
pub fn cut_off(image: &[u8]) -> Vec<Image> {
    (1..image.len())
        .flat_map(|length| stating_and_not(image[..length].to_vec()))
        .collect()
}

/// An image with more bytes behind: zeros, or its own beginning.
pub fn lengthened(image: &[u8]) -> Vec<Image> {
    let more_bytes = [1, 2, 3, 4, 8, PARTICIPANT_BYTES, ACCOUNT_BYTES, 45, 100];
    more_bytes
        .into_iter()
        .flat_map(|more| {
            let repeated = image.iter().copied().cycle();
            let length = image.len() + more;
            [
                changed(image, |copy| copy.resize(length, 0)),
                repeated.take(length).collect(),
            ]
        })
        .flat_map(stating_and_not)
        .collect()
}

/// Other counts than those of the records: with the stated length and the bytes as they were, with the length that the counts
/// give, and with so many bytes too.
pub fn miscounted((participants, accounts): Size, image: &[u8]) -> Vec<Image> {
    let fewer_or_more = |count: usize| [count - 1, count, count + 1];
    let near = fewer_or_more(participants)
        .into_iter()
        .flat_map(|participants| fewer_or_more(accounts).map(|accounts| (participants, accounts)));
    let none_or_many = [0, 64, 65, 128, 129, 255];
    let far = none_or_many
        .into_iter()
        .flat_map(|count| [(count, accounts), (participants, count), (count, count)]);
    near.chain(far)
        .chain([(64, 128), (65, 129), (0, 129)])
        .flat_map(|size| counted(size, image))
        .collect()
}

fn counted((participants, accounts): Size, image: &[u8]) -> Vec<Image> {
    let length = image_length(participants, accounts);
    let unstated = changed(image, |copy| {
        copy[5] = participants as u8;
        copy[6] = accounts as u8;
    });
    let stated = changed(&unstated, |copy| put(copy, 1, 4, length as u64));
    let fitting = changed(&stated, |copy| copy.resize(length, 0));
    let mut images = vec![unstated, stated];
    // Longer lines than this would tell nothing more.
    if length < 2000 {
        images.push(fitting);
    }
    images
}

/// Other lengths stated than that of the image: by a little, by a record, at another weight, in the other order of bytes.
pub fn misstated(image: &[u8]) -> Vec<Image> {
    let length = image.len() as u64;
    let other_lengths = [
        0,
        1,
        7,
        length - 24,
        length - 21,
        length - 1,
        length + 1,
        length + 21,
        length + 24,
        length << 8,
        length << 16,
        length << 24,
        length | 1 << 8,
        length | 1 << 16,
        length | 1 << 24,
        0xffff_ffff,
    ];
    other_lengths
        .map(|stated| changed(image, |copy| put(copy, 1, 4, stated)))
        .into()
}

pub fn other_versions(image: &[u8]) -> Vec<Image> {
    [0, 2, 3, 10, 128, 255]
        .map(|version| changed(image, |copy| copy[0] = version))
        .into()
}

#[cfg(test)]
mod tests {
    use super::*;
    use crate::generating::rolls;
    use crate::images::read_image;
    use crate::images::writing::image_of;
    use crate::random::Random;

    fn small() -> Image {
        image_of(&rolls::good(&mut Random::new(1), (2, 2)))
    }

    #[test]
    fn every_byte_is_flipped_in_turn() {
        let image = small();
        let flipped = flipped(&image);
        assert_eq!(flipped.len(), 3 * image.len());
        for (at, three) in flipped.chunks(3).enumerate() {
            for one in three {
                let differing: Vec<usize> = (0..image.len())
                    .filter(|&at| one[at] != image[at])
                    .collect();
                assert_eq!(differing, [at]);
            }
        }
    }

    #[test]
    fn no_length_but_the_right_one_is_good() {
        let image = small();
        let families = [
            cut_off(&image),
            lengthened(&image),
            misstated(&image),
            other_versions(&image),
        ];
        assert!(families.concat().iter().all(|one| read_image(one).is_err()));
        let cut_off = cut_off(&image);
        for length in 1..image.len() {
            assert!(
                cut_off.contains(&image[..length].to_vec()),
                "{length} bytes"
            );
        }
    }

    #[test]
    fn only_the_true_counts_fit_the_bytes() {
        let image = small();
        for one in miscounted((2, 2), &image) {
            let good = read_image(&one).is_ok();
            assert_eq!(good && one.len() == image.len(), one == image);
        }
    }
}
