//! A Rust host: it tests the archive's version; then the worked run's filter as text, and the run,
//! its answers printed as the program spatialjoin prints them; then the filter with a row policy, and
//! its extraction over narrowed children; then the filter at a site that indexes no relation; and what
//! the extracts cost.

use spatialjoin::{Kinds, MOST_BYTES, MOST_NODES, MOST_TEXT, Node, Refusal, Settings, VERSION};

/// `st_within(column 0, column 1) AND column 1`; column 0 is column 3 of the right child, column 1
/// column 0 of the left. `hosts/c/host.c` has it byte by byte.
const FRAME: &[u8] = b"\x01\0\x02\x01\0\x03\0\x07\0\0\0\0\x08\
    \x02\0\x03\x09st_within\x02\0\0\0\0\x07\0\0\x01\0\x08\0\0\x01\0\x08";

/// `region(column 0)`, a row policy; column 0 is column 1 of the left child.
const POLICY: &[u8] = b"\x01\0\x01\0\0\x01\0\x09\x03\x06region\x01\0\0\0\0\x09";

/// What stays of each child: of the left one its columns 4 and 0, in this order, of the right one its
/// column 3.
const LEFT: [u16; 2] = [4, 0];
const RIGHT: [u16; 1] = [3];

/// The host lends both buffers and the table, and keeps `n`, the length of the plan. For the bill it
/// keeps the sum of the walks of all extracts, refused ones too.
struct Host {
    plan: Vec<u8>,
    scratch: Vec<u8>,
    table: Vec<Node>,
    n: usize,
    effort: u32,
}

impl Host {
    fn load(&mut self, frame: &[u8]) {
        let answer = spatialjoin::load(frame, &mut self.plan, &mut self.table);
        self.take(answer);
    }

    fn extract(&mut self, settings: Settings) {
        let (plan, scratch) = (&mut self.plan, &mut self.scratch);
        let answer = spatialjoin::extract(plan, self.n, scratch, &self.table, settings);
        self.effort += match answer {
            Ok(extracted) => extracted.walk,
            Err(unextracted) => unextracted.walk,
        };
        let length = answer.map(|extracted| extracted.length);
        self.take(length.map_err(Refusal::from));
    }

    fn exchange(&mut self) {
        let answer = spatialjoin::exchange(&mut self.plan, self.n, &mut self.scratch);
        self.take(answer);
    }

    fn merge(&mut self, frame: &[u8]) {
        let (plan, scratch) = (&mut self.plan, &mut self.scratch);
        let answer = spatialjoin::merge(frame, plan, self.n, scratch, &mut self.table);
        self.take(answer);
    }

    fn project(&mut self) {
        let (plan, scratch) = (&mut self.plan, &mut self.scratch);
        let answer = spatialjoin::project(plan, self.n, scratch, &LEFT, &RIGHT);
        self.take(answer);
    }

    /// Keeps an accepted call's length and prints the plan; of a refused call, the number.
    fn take(&mut self, answer: Result<usize, Refusal>) {
        match answer {
            Ok(length) => {
                self.n = length;
                println!("00{}", hex(&self.plan[..length]));
            }
            Err(refusal) => println!("{:02x}", refusal.number()),
        }
    }
}

fn hex(bytes: &[u8]) -> String {
    bytes.iter().map(|byte| format!("{byte:02x}")).collect()
}

fn show(frame: &[u8]) {
    let mut text = vec![0; MOST_TEXT];
    match spatialjoin::print(frame, &mut text) {
        Ok(length) => println!("{}", String::from_utf8_lossy(&text[..length])),
        Err(refusal) => println!("{refusal}"),
    }
}

fn main() {
    assert!(
        spatialjoin::version_matches(),
        "the archive is of version {}, the package of {VERSION}",
        spatialjoin::version()
    );
    show(FRAME);
    let mut host = Host {
        plan: vec![0; MOST_BYTES],
        scratch: vec![0; MOST_BYTES],
        table: vec![Node::default(); MOST_NODES],
        n: 0,
        effort: 0,
    };
    host.load(FRAME);
    host.extract(Settings::default());
    host.exchange();
    host.extract(Settings::default());

    host.load(FRAME);
    host.merge(POLICY);
    show(&host.plan[..host.n]);
    host.extract(Settings::default());

    host.load(FRAME);
    host.extract(Settings::default());
    host.project();
    host.exchange();
    // Refused: the plan has the new columns now, and the list of the right child has no 1.
    host.project();

    host.load(FRAME);
    // Refused: at this site the one conjunct that could be indexed, a relation, is not.
    host.extract(Settings {
        kinds: Kinds::DISTANCES | Kinds::KNN,
        default_k: 5,
        greatest_k: 100,
    });
    println!("planning effort: {}", host.effort);
}
