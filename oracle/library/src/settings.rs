//! The settings of a list of calls: in many cases those of the program, else good ones beside the ks of
//! the frames, or bad ones.

use driver::rng::Rng;
use reading::decode;
use reading::frame::{Expr, PHYSICAL};
use reading::settings::Settings;
use spatialjoin::{Kinds, Settings as Given};

/// Every list has some of these, whatever its frames have.
const ENDS: [u32; 4] = [1, 2, u32::MAX - 1, u32::MAX];

/// As the library takes them.
pub fn to_library(settings: Settings) -> Given {
    Given {
        kinds: Kinds::from_bits(settings.kinds),
        default_k: settings.default_k,
        greatest_k: settings.greatest_k,
    }
}

/// For a list of calls on these frames.
pub fn any<'a>(rng: &mut Rng, frames: impl Iterator<Item = &'a [u8]>) -> Settings {
    let program = Settings::OF_THE_PROGRAM;
    let ks: Vec<u32> = frames.flat_map(ks).collect();
    match rng.below(16) {
        0..=6 => program,
        7 => Settings {
            kinds: rng.pick(&[1, 2, 4]),
            ..program
        },
        8 => Settings {
            kinds: rng.pick(&[3, 5, 6]),
            ..program
        },
        9..=11 => Settings {
            kinds: rng.pick(&[4, 5, 6, 7]),
            ..beside(rng, &ks)
        },
        12..=14 => beside(rng, &ks),
        _ => bad(rng, &ks),
    }
}

/// The numbers in the place of k of a frame's KNN leaves.
fn ks(frame: &[u8]) -> Vec<u32> {
    if frame.first() != Some(&PHYSICAL) {
        return Vec::new();
    }
    let Ok(frame) = decode::physical(frame) else {
        return Vec::new();
    };
    let k = |leaf: &Expr| match leaf {
        Expr::Function { name, args } if name == b"st_knn" => match args.get(2) {
            Some(Expr::Literal { bytes, .. }) => {
                Some(u32::try_from(u64::from_be_bytes(*bytes)).unwrap_or(u32::MAX))
            }
            _ => None,
        },
        _ => None,
    };
    frame.expr.and_leaves().into_iter().filter_map(k).collect()
}

/// Any kinds, and a greatest k that is one of these, one less or one more.
fn beside(rng: &mut Rng, ks: &[u32]) -> Settings {
    let greatest_k = near(rng, ks).max(1);
    let default_k = match rng.below(4) {
        0 => 1,
        1 => greatest_k,
        2 => near(rng, ks).clamp(1, greatest_k),
        _ => 1 + rng.below(greatest_k as usize) as u32,
    };
    Settings {
        kinds: 1 + rng.below(7) as u8,
        default_k,
        greatest_k,
    }
}

fn near(rng: &mut Rng, ks: &[u32]) -> u32 {
    let k = match ks {
        [] => rng.pick(&ENDS),
        _ if rng.one_in(8) => rng.pick(&ENDS),
        _ => rng.pick(ks),
    };
    match rng.below(4) {
        0 => k.saturating_sub(1),
        1 => k.saturating_add(1),
        _ => k,
    }
}

/// One thing is wrong, or two.
pub fn bad(rng: &mut Rng, ks: &[u32]) -> Settings {
    let mut settings = match rng.one_in(2) {
        true => Settings::OF_THE_PROGRAM,
        false => beside(rng, ks),
    };
    match rng.below(8) {
        0 => settings.kinds = 0,
        1 => settings.kinds = 8,
        2 => settings.kinds |= rng.pick(&[8, 16, 32, 64, 128, 248]),
        3 => settings.default_k = 0,
        4 => settings.greatest_k = settings.default_k - 1,
        5 => settings.greatest_k = rng.below(settings.default_k as usize) as u32,
        6 => (settings.default_k, settings.greatest_k) = (u32::MAX, u32::MAX - 1),
        _ => (settings.kinds, settings.default_k) = (rng.pick(&[0, 8]), 0),
    }
    settings
}
