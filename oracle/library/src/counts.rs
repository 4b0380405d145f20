use std::collections::BTreeMap;
use std::fmt;

use reading::frame::{DISTANCE, KNN, RELATION};
use reading::settings::Settings;
use reading::verdicts::REASONS;

use crate::call::{Call, Kind};

/// The calls, with the refusals that documents 01 and 02 give each of them.
const ANSWERS: [(Kind, &[i64]); 11] = [
    (Kind::Load, &[1, 2, 3, 4, 5, 6, 7, 8, 9, 17]),
    (Kind::Extract, &[9, 10, 11, 12, 13, 24]),
    (Kind::Exchange, &[9, 10, 11]),
    (Kind::Logical, &[1, 2, 3, 4, 5, 7]),
    (Kind::Print, &[1, 2, 3, 4, 5, 6, 7, 8, 15]),
    (
        Kind::Merge,
        &[1, 2, 3, 4, 5, 6, 7, 8, 9, 10, 11, 12, 16, 17],
    ),
    (Kind::Project, &[9, 10, 11, 18, 19, 20]),
    (Kind::Put, &[1, 10, 21, 22, 23]),
    (Kind::Serve, &[9, 10]),
    (Kind::ExtractAll, &[1, 2, 3, 4, 5, 6, 7, 8, 9, 24]),
    (Kind::Explain, &[1, 2, 3, 4, 5, 6, 7, 8, 9, 24]),
];

/// How many calls there were of each kind, by what they answered.
#[derive(Default)]
pub struct Counts {
    accepted: BTreeMap<Kind, u64>,
    refused: BTreeMap<(Kind, i64), u64>,
    /// How many extracts had a walk of more than one node, and the longest.
    walks: u64,
    longest: i64,
    /// How many extracts under other settings than the program's were accepted, and how many found no
    /// match.
    settled: u64,
    unmatched: u64,
    /// How many serves had a frame of each queue, and how many found both empty.
    served: [u64; 2],
    both_empty: u64,
    /// How many extracts of all conjuncts had no round, how many more than one, and the most rounds.
    unrounded: u64,
    rounded: u64,
    most_rounds: i64,
    /// How often explains said each verdict, by its byte.
    verdicts: BTreeMap<u8, u64>,
    /// How many frames the original extracted and the verdicts named what it took, and in how many both
    /// found nothing.
    named: [u64; 2],
}

impl Counts {
    pub fn count(&mut self, call: &Call, answer: i64) {
        let kind = call.kind;
        if kind == Kind::Extract && call.settings != Settings::OF_THE_PROGRAM {
            self.settled += u64::from(answer >= 0);
            self.unmatched += u64::from(kind.without_walk(answer) == -13);
        }
        let count = match kind.without_walk(answer) {
            0.. => self.accepted.entry(kind).or_default(),
            refused => self.refused.entry((kind, -refused)).or_default(),
        };
        *count += 1;
        let walk = kind.walk(answer);
        self.walks += u64::from(walk > 1);
        self.longest = self.longest.max(walk);
        if kind == Kind::ExtractAll && answer >= 0 {
            let rounds = answer / 65_536;
            self.unrounded += u64::from(rounds == 0);
            self.rounded += u64::from(rounds > 1);
            self.most_rounds = self.most_rounds.max(rounds);
        }
        if kind == Kind::Serve {
            match answer {
                1.. => self.served[(answer / 65_536) as usize] += 1,
                0 => self.both_empty += 1,
                _ => (),
            }
        }
    }

    pub fn count_verdicts(&mut self, said: &[u8]) {
        for byte in said {
            *self.verdicts.entry(*byte).or_default() += 1;
        }
    }

    pub fn count_original(&mut self, extracted: bool) {
        self.named[usize::from(!extracted)] += 1;
    }

    /// The verdicts that none said.
    fn unsaid(&self) -> Vec<String> {
        let matches = [RELATION, DISTANCE, KNN].into_iter();
        let all = matches.chain(REASONS.map(|(reason, _)| reason.byte()));
        let lacks = |byte: &u8| !self.verdicts.contains_key(byte);
        all.filter(lacks)
            .map(|byte| format!("Explain verdict {byte:02x}"))
            .collect()
    }

    /// The answers that a call may give and that none gave.
    pub fn unreached(&self) -> Vec<String> {
        let mut unreached = Vec::new();
        for (kind, refusals) in ANSWERS {
            if !self.accepted.contains_key(&kind) {
                unreached.push(format!("{kind:?} accepted"));
            }
            let lacks = |number: &&i64| !self.refused.contains_key(&(kind, **number));
            let names = refusals.iter().filter(lacks);
            unreached.extend(names.map(|number| format!("{kind:?} refusal {number}")));
        }
        if self.settled == 0 || self.unmatched == 0 {
            unreached.push("Extract under other settings, accepted and unmatched".to_owned());
        }
        if self.both_empty == 0 || self.served.contains(&0) {
            unreached.push("Serve of each queue, and of none".to_owned());
        }
        if self.unrounded == 0 || self.rounded == 0 {
            unreached.push("ExtractAll of no round, and of several".to_owned());
        }
        if self.named.contains(&0) {
            unreached.push("Explain beside the original, extracted and not".to_owned());
        }
        unreached.extend(self.unsaid());
        unreached
    }

    fn write_verdicts(&self, f: &mut fmt::Formatter<'_>) -> fmt::Result {
        let said = |(byte, count)| format!("{byte:02x} {count}");
        let verdicts: Vec<String> = self.verdicts.iter().map(said).collect();
        writeln!(f, "Explain    verdicts {}", verdicts.join(", "))?;
        let [extracted, none] = self.named;
        writeln!(
            f,
            "Explain    named what the original takes {extracted}, as it none {none}"
        )
    }

    fn calls(&self) -> u64 {
        self.accepted.values().sum::<u64>() + self.refused.values().sum::<u64>()
    }
}

impl fmt::Display for Counts {
    fn fmt(&self, f: &mut fmt::Formatter<'_>) -> fmt::Result {
        for (kind, refusals) in ANSWERS {
            let accepted = self.accepted.get(&kind).unwrap_or(&0);
            let name = format!("{kind:?}");
            writeln!(f, "{name:<10} accepted   {accepted:>10}")?;
            for number in refusals {
                let count = self.refused.get(&(kind, *number)).unwrap_or(&0);
                writeln!(f, "{name:<10} refusal {number:>2} {count:>10}")?;
            }
        }
        let [chassis, fixed_unit] = self.served;
        writeln!(
            f,
            "Serve      queue 0 {chassis:>13}, queue 1 {fixed_unit}, both empty {}",
            self.both_empty
        )?;
        let Counts { walks, longest, .. } = self;
        writeln!(
            f,
            "Extract    walks over 1 {walks:>8}, the longest {longest}"
        )?;
        let Counts {
            settled, unmatched, ..
        } = self;
        writeln!(
            f,
            "Extract    other settings: accepted {settled}, refusal 13 {unmatched}"
        )?;
        let Counts {
            unrounded, rounded, ..
        } = self;
        writeln!(
            f,
            "ExtractAll no round {unrounded}, several {rounded}, the most {}",
            self.most_rounds
        )?;
        self.write_verdicts(f)?;
        write!(f, "{} calls", self.calls())
    }
}
