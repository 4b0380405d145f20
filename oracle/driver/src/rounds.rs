//! Request 14 of document 02 by the original: its extraction, repeated on each remainder.

use reading::decode;
use reading::frame::{Frame, Plan};

use crate::original::transform;

/// The bytes of each predicate without its position, which the original does not have, and those of what
/// is left; the remainder is loaded as bytes.
pub fn rounds(first: &Frame) -> (Vec<Vec<u8>>, Option<Frame>) {
    let mut taken = Vec::new();
    let mut rest = Some(first.clone());
    while let Some(frame) = &rest {
        let Some(extracted) = transform(frame) else {
            break;
        };
        let mut bytes = Vec::new();
        extracted.put(&mut bytes);
        let with_position = [&bytes[..1], &[0, 0], &bytes[1..]].concat();
        let Ok(Plan::Extraction(extraction)) = decode::plan(&with_position) else {
            panic!("an extraction is a good plan");
        };
        let left = extraction.remainder.as_ref().map_or(1, length);
        bytes.truncate(bytes.len() - left);
        taken.push(bytes);
        rest = extraction.remainder;
    }
    (taken, rest)
}

fn length(frame: &Frame) -> usize {
    reading::encode::physical(frame).len()
}

#[cfg(test)]
mod tests {
    use reading::conjuncts::{Conjuncts, conjuncts};
    use reading::settings::Settings;
    use reading::{decode, encode, program};

    use super::rounds;
    use crate::make;

    /// The bytes of each predicate, and those of what is left.
    fn read(all: &Conjuncts) -> Vec<Vec<u8>> {
        let one = |taken: &(u16, _)| {
            let one = Conjuncts {
                taken: vec![taken.clone()],
                rest: None,
            };
            let mut bytes = encode::conjuncts(&one);
            bytes.pop();
            [&bytes[..1], &bytes[3..]].concat()
        };
        all.taken.iter().map(one).collect()
    }

    /// The reading's predicates, in their order, are those of the original's rounds but for the position,
    /// and so is what is left.
    #[test]
    fn all_conjuncts_are_the_originals() {
        let mut counts = [0; 4];
        for number in 0..8_000 {
            let line = make::case(14, number).lines.swap_remove(0);
            let bytes = program::parse(&line).unwrap_or_default();
            let Ok(frame) = decode::physical(&bytes) else {
                continue;
            };
            let all = conjuncts(&frame, Settings::OF_THE_PROGRAM);
            let (taken, rest) = rounds(&frame);
            assert_eq!(taken, read(&all));
            assert_eq!(rest, all.rest);
            counts[taken.len().min(3)] += 1;
        }
        assert!(counts.iter().all(|count| *count > 100), "{counts:?}");
    }
}
