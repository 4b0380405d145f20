//! A Rust host of both machines: jobs of the chassis and of the fixed unit wait in two queues, and each
//! that is served is loaded and extracted. Prints whose the job was and the answer of its extract, as
//! the program spatialjoin prints one.

use spatialjoin::{
    MOST_NODES, MOST_QUEUED, Node, Queue, Queues, Refusal, Served, Settings, VERSION,
};

/// A filter of one conjunct, of this function of a left column and a right one.
fn filter(name: &str) -> Vec<u8> {
    let records = b"\x01\0\x02\0\0\0\0\x0a\x01\0\0\0\x14";
    let head = [3, name.len() as u8];
    let columns = b"\x02\0\0\0\0\x0a\0\0\x01\0\x14";
    [&records[..], &head, name.as_bytes(), columns].concat()
}

/// The host lends buffers that are long enough for every frame that waits, and a table.
struct Planner {
    queues: Queues,
    frame: Vec<u8>,
    plan: Vec<u8>,
    scratch: Vec<u8>,
    table: Vec<Node>,
}

impl Planner {
    /// A machine sends a job. A full queue would have it wait and send it again.
    fn send(&mut self, queue: Queue, name: &str) {
        if let Err(refusal) = self.queues.put(queue, &filter(name)) {
            println!("not taken: {:02x}", refusal.number());
        }
    }

    /// Plans the job that is due.
    fn plan_next(&mut self) {
        match self.queues.serve(&mut self.frame) {
            Ok(Some(Served { queue, length })) => {
                let name = match queue {
                    Queue::Chassis => "chassis",
                    Queue::FixedUnit => "fixed unit",
                };
                match self.extraction(length) {
                    Ok(plan) => println!("{name}: 00{plan}"),
                    Err(refusal) => println!("{name}: {:02x}", refusal.number()),
                }
            }
            Ok(None) => println!("no job waits"),
            Err(refusal) => println!("not served: {:02x}", refusal.number()),
        }
    }

    /// Loads and extracts the frame that was served.
    fn extraction(&mut self, length: usize) -> Result<String, Refusal> {
        let (plan, scratch) = (&mut self.plan, &mut self.scratch);
        let n = spatialjoin::load(&self.frame[..length], plan, &mut self.table)?;
        let n = spatialjoin::extract(plan, n, scratch, &self.table, Settings::default())?.length;
        Ok(plan[..n].iter().map(|byte| format!("{byte:02x}")).collect())
    }
}

fn main() {
    assert!(
        spatialjoin::version_matches(),
        "the archive is of version {}, the package of {VERSION}",
        spatialjoin::version()
    );
    let mut planner = Planner {
        queues: Queues::fresh(),
        frame: vec![0; MOST_QUEUED],
        plan: vec![0; MOST_QUEUED],
        scratch: vec![0; MOST_QUEUED],
        table: vec![Node::default(); MOST_NODES],
    };
    planner.send(Queue::Chassis, "st_intersects");
    planner.send(Queue::Chassis, "st_within");
    planner.send(Queue::Chassis, "region");
    planner.send(Queue::FixedUnit, "st_knn");
    // The chassis first, since nobody was served before; then the fixed unit, which was not served
    // last; then the chassis again.
    for _ in 0..3 {
        planner.plan_next();
    }
    planner.send(Queue::Chassis, "st_knn");
    // The last to come, and due at once.
    planner.send(Queue::FixedUnit, "st_within");
    for _ in 0..4 {
        planner.plan_next();
    }
}
