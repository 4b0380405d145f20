//! Times the library, the original Rust, plain Rust and plain C on the same frames and prints tables in Markdown.

mod calls;
mod check;
mod clock;
mod conjuncts;
mod frames;
mod measure;
mod operations;
mod original;
mod ours;
mod parts;
mod plain;
mod plain_c;
mod projections;
mod queues;
mod table;
mod verdicts;

use std::env;
use std::process::ExitCode;

use calls::Library;
use frames::Group;
use measure::{Rounds, Task};
use operations::{Logical, Merges, Physical};
use ours::{Console, Ours};
use projections::{Length, Projections};
use queues::Waiting;
use spatialjoin::{Settings, numbers};
use table::{BESIDE_EXCHANGE, BESIDE_EXTRACT, BOTH, Column, ORIGINAL, QUEUED, Table, YARDSTICK};

/// How many tables a run has, of an operation each.
const OPERATIONS: usize = 14;

const USAGE: &str = "bench [--rounds N | --repeat GROUP | --conjuncts N | --verdicts N]";

enum Asked {
    Tables(usize),
    Repeat(String),
    Conjuncts(usize),
    Verdicts(usize),
}

fn main() -> ExitCode {
    let words: Vec<String> = env::args().skip(1).collect();
    let done = match asked(&words) {
        Some(_) if !spatialjoin::version_matches() => Err(another_version()),
        Some(Asked::Tables(rounds)) => run(rounds),
        Some(Asked::Repeat(group)) => repeat(&group),
        Some(Asked::Conjuncts(rounds)) => all_conjuncts(&mut Rounds::new(rounds, 1)).map(drop),
        Some(Asked::Verdicts(rounds)) => explain(&mut Rounds::new(rounds, 1)).map(drop),
        None => {
            eprintln!("{USAGE}");
            return ExitCode::from(2);
        }
    };
    match done {
        Ok(()) => ExitCode::SUCCESS,
        Err(fault) => {
            eprintln!("{fault}; nothing was timed");
            ExitCode::FAILURE
        }
    }
}

fn another_version() -> String {
    let (archive, package) = (spatialjoin::version(), spatialjoin::VERSION);
    format!("the library is of version {archive}, not {package}")
}

fn asked(words: &[String]) -> Option<Asked> {
    match words {
        [] => Some(Asked::Tables(25)),
        [name, value] if name == "--rounds" => {
            let rounds = value.parse().ok().filter(|rounds| *rounds > 0)?;
            Some(Asked::Tables(rounds))
        }
        [name, value] if name == "--conjuncts" => {
            let rounds = value.parse().ok().filter(|rounds| *rounds > 0)?;
            Some(Asked::Conjuncts(rounds))
        }
        [name, value] if name == "--verdicts" => {
            let rounds = value.parse().ok().filter(|rounds| *rounds > 0)?;
            Some(Asked::Verdicts(rounds))
        }
        [name, group] if name == "--repeat" => Some(Asked::Repeat(group.clone())),
        _ => None,
    }
}

/// Ours loads, extracts and prints the frames of a group over and over, projects their extractions,
/// and merges the pairs or puts and serves on the queues of that name, for a program that counts
/// instructions.
fn repeat(name: &str) -> Result<(), String> {
    let groups = frames::physical().into_iter().filter(|g| g.name == name);
    let pairs = frames::merges().into_iter().filter(|p| p.name == name);
    let (mut ours, mut console, mut done) = (Ours::new(), Console::<Library>::new(), 0);
    for frame in groups.flat_map(|group| group.frames.into_iter().cycle().take(800)) {
        ours.load(&frame);
        ours.extract();
        console.print(&frame);
        done += 1;
    }
    for (held, new) in pairs.flat_map(|p| p.held.into_iter().zip(p.new).cycle().take(800)) {
        ours.load(&held);
        ours.merge(&new);
        done += 1;
    }
    for length in [Length::Short, Length::Long] {
        let groups = Projections::all(length).into_iter();
        for group in groups.filter(|group| group.name == name) {
            for (plan, lists) in group.plans.iter().zip(&group.lists).cycle().take(800) {
                ours.hold(plan);
                ours.project(lists);
            }
        }
    }
    done += repeat_whole(name);
    for waiting in Waiting::all().iter().filter(|queues| queues.name == name) {
        waiting.repeat(800);
        done += 1;
    }
    match done {
        0 => Err(format!("no group {name}")),
        _ => Ok(()),
    }
}

/// Extracts all conjuncts of the frames of that name, and explains them; how often.
fn repeat_whole(name: &str) -> usize {
    let mut out = vec![0; spatialjoin::MOST_BYTES];
    let mut done = 0;
    let groups = frames::verdicts().into_iter().filter(|g| g.name == name);
    for frame in groups.flat_map(|group| group.frames.into_iter().cycle().take(800)) {
        numbers::extract_all(&frame, &mut out, Settings::default());
        numbers::explain(&frame, &mut out, Settings::default());
        done += 1;
    }
    done
}

fn run(rounds: usize) -> Result<(), String> {
    let made =
        |groups: Vec<Group>| -> Vec<Physical> { groups.into_iter().map(Physical::new).collect() };
    let (physical, texts) = (made(frames::physical()), made(frames::texts()));
    let logical: Vec<Logical> = frames::logical().into_iter().map(Logical::new).collect();
    let printed = || physical.iter().chain(&texts);
    printed().try_for_each(check::physical)?;
    printed().try_for_each(check::plain)?;
    printed().try_for_each(check::print)?;
    let merges: Vec<Merges> = frames::merges().into_iter().map(Merges::new).collect();
    merges.iter().try_for_each(check::merge)?;
    logical.iter().try_for_each(check::logical)?;
    let projections = [Length::Short, Length::Long].map(Projections::all);
    projections.iter().flatten().try_for_each(check::project)?;
    let waiting = Waiting::all();
    waiting.iter().try_for_each(check::queues)?;

    let mut rounds = Rounds::new(rounds, OPERATIONS);
    let mut tables = print_tables(
        &physical,
        &texts,
        &logical,
        &merges,
        &projections,
        &mut rounds,
    );
    tables.extend(print_queue_tables(&waiting, &mut rounds));
    tables.push(all_conjuncts(&mut rounds)?);
    tables.push(explain(&mut rounds)?);
    assert_eq!(tables.len(), OPERATIONS, "what progress counts");
    table::print_all(&tables);
    table::print_c_goals(&tables);
    table::print_linear(&tables);
    Ok(())
}

/// The table of all conjuncts alone.
fn all_conjuncts(rounds: &mut Rounds) -> Result<Table, String> {
    let groups = frames::conjuncts();
    groups.iter().try_for_each(check::conjuncts)?;
    let tasks = groups.iter().map(conjuncts::all).collect();
    let table = shown(rounds, "All conjuncts", BESIDE_EXTRACT, tasks);
    table::print_all_goals(&table);
    Ok(table)
}

/// The table of explain alone.
fn explain(rounds: &mut Rounds) -> Result<Table, String> {
    let groups = frames::verdicts();
    groups.iter().try_for_each(check::verdicts)?;
    let tasks = groups.iter().map(verdicts::explain).collect();
    let table = shown(rounds, "Explain", BESIDE_EXTRACT, tasks);
    table::print_explain_goal(&table);
    Ok(table)
}

/// What a frame costs before it is loaded.
fn print_queue_tables(waiting: &[Waiting], rounds: &mut Rounds) -> [Table; 2] {
    let mut timed = |title, tasks| shown(rounds, title, QUEUED, tasks);
    let puts = waiting.iter().map(Waiting::put).collect();
    let serves = waiting.iter().map(Waiting::serve).collect();
    println!();
    [
        timed("Put, the last of these frames", puts),
        timed("Serve, the first of these frames", serves),
    ]
}

/// What the calls on frames and plans cost, and the goals.
fn print_tables(
    physical: &[Physical],
    texts: &[Physical],
    logical: &[Logical],
    merges: &[Merges],
    [short, long]: &[Vec<Projections>; 2],
    rounds: &mut Rounds,
) -> Vec<Table> {
    println!("Nanoseconds a frame: median, ± half the distance between the quartiles.\n");
    let mut timed = |title, columns, tasks| shown(rounds, title, columns, tasks);
    let each = |task: fn(&Physical) -> Task<'_>| physical.iter().map(task).collect();
    let exchange = each(Physical::exchange_frame);
    let exchange_back = each(Physical::exchange_extraction);
    let logical = logical.iter().map(Logical::logical).collect();
    let printed = physical.iter().chain(texts);
    let merges = merges.iter().map(Merges::merge).collect();
    let short = short.iter().map(Projections::project).collect();
    let long = long.iter().map(Projections::project).collect();
    let own = "Project by lists of the plan's own columns";
    let all = "Project by lists of 4,096 columns";
    let tables = [
        timed("Load", BOTH, each(Physical::load)),
        timed("Load and extract", BOTH, each(Physical::load_and_extract)),
        timed("Extract, a frame held", BOTH, each(Physical::extract)),
        timed("Exchange, a frame held", ORIGINAL, exchange),
        timed("Exchange, an extraction held", ORIGINAL, exchange_back),
        timed("Logical", ORIGINAL, logical),
        timed("Print", YARDSTICK, printed.map(Physical::print).collect()),
        timed("Merge, a frame held", YARDSTICK, merges),
        timed(own, BESIDE_EXCHANGE, short),
        timed(all, BESIDE_EXCHANGE, long),
    ];
    table::print_growth(&tables);
    let [load, load_and_extract, extract, ..] = &tables;
    let [.., print, merge, project, _] = &tables;
    table::print_goals(load, load_and_extract, [print, merge, project]);
    table::print_record_goals(load, load_and_extract, extract);
    tables.into()
}

/// Prints a table as soon as it is measured.
fn shown(
    rounds: &mut Rounds,
    title: &'static str,
    columns: &'static [Column],
    tasks: Vec<Task<'_>>,
) -> Table {
    let table = Table {
        title,
        columns,
        rows: rounds.measure(tasks),
    };
    table.print();
    table
}
