//! The frames that are timed. Each group has frames of one make, taken in turn.

use reading::encode;
use reading::frame::{Expr, Frame, MAX_NODES, MAX_RECORDS, Record, Side, literal, operator};

use crate::parts::{
    binary, call, comb, conjuncts_of_bytes, conjuncts_of_nodes, number, tree, tree_of, with_match,
};

pub struct Group {
    pub name: &'static str,
    pub frames: Vec<Vec<u8>>,
}

/// The names of the groups whose cost per byte is compared.
pub const ONE_KIB: &str = "1,024 bytes";
pub const SIXTEEN_KIB: &str = "16,384 bytes";

/// Those of the goals about records.
pub const MANY_RECORDS: &str = "256 records";
pub const NONE_STAYS: &str = "256 records, none stays";
pub const HALF_STAY: &str = "256 records, half stay";

const SIZES: [(&str, usize); 5] = [
    ("64 bytes", 64),
    ("256 bytes", 256),
    (ONE_KIB, 1_024),
    ("4,096 bytes", 4_096),
    (SIXTEEN_KIB, 16_384),
];

/// The lengths of merged frames: the shortest pair with a match in both is longer than 64 bytes.
const MERGED_SIZES: [(&str, usize); 5] = [
    ("128 bytes", 128),
    ("256 bytes", 256),
    (ONE_KIB, 1_024),
    ("4,096 bytes", 4_096),
    (SIXTEEN_KIB, 16_384),
];

/// Frames of one size differ in the order of their conjuncts and the place of the match.
const VARIANTS: usize = 8;

fn group(name: &'static str, make: impl Fn(usize) -> Vec<u8>) -> Group {
    let frames = (0..VARIANTS).map(make).collect();
    Group { name, frames }
}

/// A frame that is made in one way only.
fn single(name: &'static str, frame: Vec<u8>) -> Group {
    Group {
        name,
        frames: vec![frame],
    }
}

pub fn physical() -> Vec<Group> {
    let sized = SIZES.map(|(name, size)| group(name, move |variant| sized(size, variant)));
    let mut groups = Vec::from(sized);
    groups.push(group(MANY_RECORDS, many_records));
    groups.push(single(NONE_STAYS, no_record_stays()));
    groups.push(single(HALF_STAY, half_of_records_stay()));
    groups.push(group("1,024 nodes", many_nodes));
    groups.push(group("64 levels", deepest));
    groups.push(group("511 conjuncts", many_conjuncts));
    groups.push(group("functions of 16 columns", wide_functions));
    groups.push(group("near misses", near_misses));
    groups.push(single("worst for the Rust", worst_for_rust()));
    groups.push(single("worst for ours", worst_for_ours()));
    groups
}

/// For all conjuncts alone: of the mix, in which one matches, and of as many as fit, which all do.
pub fn conjuncts() -> Vec<Group> {
    const SIZES: [(&str, &str, usize); 4] = [
        (ALL_SHORT_ONE, ALL_SHORT, 64),
        ("256 bytes, one matches", "256 bytes, all match", 256),
        (ALL_MIDDLE_ONE, ALL_MIDDLE, 1_024),
        (ALL_LONG_ONE, ALL_LONG, 16_384),
    ];
    let one = SIZES.map(|(name, _, size)| group(name, move |variant| sized(size, variant)));
    let all = SIZES.map(|(_, name, size)| single(name, matching_sized(size)));
    // The nodes, four to a conjunct, end this one before its bytes do.
    let most = single("1,024 nodes, all match", matching_sized(8_192));
    one.into_iter().chain(all).chain([most]).collect()
}

/// For explain alone: those, and names nearly ours below every conjunct, each of which is looked at.
pub fn verdicts() -> Vec<Group> {
    let mut groups = conjuncts();
    groups.push(single("names nearly ours below", nearly_ours_below()));
    groups
}

/// As long as one of ours and with its last letter, so that no test before the comparison passes them over.
fn nearly_ours_below() -> Vec<u8> {
    let near = || call("ST_WITHEN", Vec::new());
    let wide = || call("f", (0..16).map(|_| near()).collect());
    physical_frame(records(2), tree((0..56).map(|_| wide()).collect()))
}

/// Those of the goals about all conjuncts.
pub const ALL_SHORT_ONE: &str = "64 bytes, one matches";
pub const ALL_SHORT: &str = "64 bytes, all match";
pub const ALL_MIDDLE_ONE: &str = "1,024 bytes, one matches";
pub const ALL_MIDDLE: &str = "1,024 bytes, all match";
pub const ALL_LONG_ONE: &str = "16,384 bytes, one matches";
pub const ALL_LONG: &str = "16,384 bytes, all match";

/// At most this many bytes: as many relations, distances and KNN calls in turn as fit, each of which
/// matches. Where there may be no more nodes, further arguments of long names, which are ignored, fill it.
fn matching_sized(size: usize) -> Vec<u8> {
    let records = records((size / 128).max(2));
    let count = records.len();
    let fits = |conjuncts: &[Expr]| {
        let frame = physical_frame(records.clone(), tree(conjuncts.to_vec()));
        let nodes = nodes_of(&conjuncts) + conjuncts.len() - 1;
        frame.len() <= size && nodes <= MAX_NODES
    };
    let relation = |place: usize, pads: usize| {
        let mut args = vec![column(2 * place % count), column((2 * place + 1) % count)];
        args.extend((0..pads).map(|_| call("warehouse_partition_is_reachable", Vec::new())));
        match place % 8 {
            7 if pads == 0 => call("st_knn", args),
            3 => {
                args.insert(2, number(place as u64));
                call("st_dwithin", args)
            }
            _ => call("st_within", args),
        }
    };
    // Two further arguments fill 16,384 bytes with 1,024 nodes, none shorter frames.
    let pads = if size > 8_192 { 2 } else { 0 };
    let mut conjuncts = vec![relation(0, pads)];
    loop {
        conjuncts.push(relation(conjuncts.len(), pads));
        if !fits(&conjuncts) {
            conjuncts.pop();
            return physical_frame(records, tree(conjuncts));
        }
    }
}

fn nodes_of(exprs: &[Expr]) -> usize {
    let below = |expr: &Expr| {
        let children: Vec<Expr> = expr.children().into_iter().cloned().collect();
        1 + nodes_of(&children)
    };
    exprs.iter().map(below).sum()
}

/// For print alone.
pub fn texts() -> Vec<Group> {
    vec![single("longest text", longest_text())]
}

/// Frames to merge: one that is held and a new one.
pub struct Pairs {
    pub name: &'static str,
    pub held: Vec<Vec<u8>>,
    pub new: Vec<Vec<u8>>,
}

fn pairs(name: &'static str, make: impl Fn(usize) -> (Vec<u8>, Vec<u8>)) -> Pairs {
    let (held, new) = (0..VARIANTS).map(make).unzip();
    Pairs { name, held, new }
}

/// Two halves of each size, and a filter and a policy of unlike lengths.
pub fn merges() -> Vec<Pairs> {
    const POLICY: usize = 64;
    let long = |merged: usize, variant| sized(merged + 1 - POLICY, variant);
    let halves = MERGED_SIZES.map(|(name, size)| {
        pairs(name, move |variant| {
            (sized(size / 2, variant), sized(size / 2 + 1, variant))
        })
    });
    let mut groups = Vec::from(halves);
    groups.push(pairs("short policy, long filter", |variant| {
        (long(16_384, variant), sized(POLICY, variant))
    }));
    groups.push(pairs("long policy, short filter", |variant| {
        (sized(POLICY, variant), long(16_384, variant))
    }));
    groups.push(pairs("256 records", |variant| {
        let half = || records_and_nodes(MAX_RECORDS / 2, 40, variant);
        (half(), half())
    }));
    groups.push(pairs("1,024 nodes", |variant| {
        let half = |nodes| records_and_nodes(16, nodes, variant);
        (half(MAX_NODES / 2 - 1), half(MAX_NODES / 2))
    }));
    groups
}

pub fn logical() -> Vec<Group> {
    let sized = SIZES.map(|(name, size)| group(name, move |variant| logical_sized(size, variant)));
    let mut groups = Vec::from(sized);
    groups.push(group("1,024 nodes", logical_nodes));
    groups.push(single("worst for the Rust", logical_worst_for_rust()));
    groups.push(single("worst for ours", logical_worst_for_ours()));
    groups
}

/// Records that all differ, of the children in turn.
fn records(count: usize) -> Vec<Record> {
    let record = |index: usize| Record {
        side: [Side::Left, Side::Right][index % 2],
        index: index as u16,
        tag: index as u16,
    };
    (0..count).map(record).collect()
}

fn physical_frame(records: Vec<Record>, expr: Expr) -> Vec<u8> {
    encode::physical(&Frame { records, expr })
}

fn column(index: usize) -> Expr {
    Expr::Column {
        index: index as u16,
        tag: index as u16,
    }
}

/// The conjunct that is taken; its first column is the right child's.
fn matching() -> Expr {
    call("st_within", vec![column(1), column(0)])
}

/// A filter of this many bytes with a record for every 128 of them.
fn sized(size: usize, variant: usize) -> Vec<u8> {
    let records = records((size / 128).max(2));
    let count = records.len();
    let least = physical_frame(records.clone(), matching()).len();
    let others = conjuncts_of_bytes(size - least, variant, &|number| column(number % count));
    let frame = physical_frame(records, with_match(others, matching(), variant));
    assert_eq!(frame.len(), size);
    frame
}

/// A short filter over as many records as there may be.
fn many_records(variant: usize) -> Vec<u8> {
    let others = conjuncts_of_nodes(40, variant, &|number| {
        column((37 * number + variant) % MAX_RECORDS)
    });
    physical_frame(
        records(MAX_RECORDS),
        with_match(others, matching(), variant),
    )
}

/// As many records as there may be, and a remainder without columns.
fn no_record_stays() -> Vec<u8> {
    let constant = call("f", Vec::new());
    let expr = binary(operator::AND, constant, matching());
    physical_frame(records(MAX_RECORDS), expr)
}

/// Different records, half of which the remainder references: each of the others is looked for
/// among those, and is none of them.
fn half_of_records_stay() -> Vec<u8> {
    let half = MAX_RECORDS / 2;
    let wide = |first: usize| call("f", (first..first + 16).map(column).collect());
    let mut conjuncts: Vec<Expr> = (half..MAX_RECORDS).step_by(16).map(wide).collect();
    conjuncts.push(matching());
    physical_frame(records(MAX_RECORDS), tree(conjuncts))
}

/// As many nodes as there may be, the match's three among them.
fn many_nodes(variant: usize) -> Vec<u8> {
    records_and_nodes(16, MAX_NODES, variant)
}

/// So many records and nodes, the match's three among these.
fn records_and_nodes(count: usize, nodes: usize, variant: usize) -> Vec<u8> {
    let others = conjuncts_of_nodes(nodes - 3, variant, &|number| column(number % count));
    physical_frame(records(count), with_match(others, matching(), variant))
}

/// As many levels as there may be: arguments in chains of calls, of operators or of other nodes; and combs of
/// Ands to either side, with the match at the bottom or at the top.
fn deepest(variant: usize) -> Vec<u8> {
    const LINKS: usize = 62;
    let link = |expr: Expr| match variant {
        0 => call("f", vec![expr]),
        1 => binary(9, expr, number(1)),
        _ => Expr::Other {
            tag: 1,
            children: vec![expr],
        },
    };
    let chain = |end: Expr| (0..LINKS).fold(end, |expr, _| link(expr));
    let other = || call("st_isvalid", vec![column(variant % 2)]);
    let others = vec![other(); LINKS];
    let expr = match variant {
        0..=2 => call("st_within", vec![chain(column(1)), chain(column(0))]),
        3 | 4 => comb(matching(), others),
        5 | 6 => right_comb(others, matching()),
        _ => right_comb([&[matching()], &others[1..]].concat(), other()),
    };
    physical_frame(records(2), expr)
}

/// The And of these conjuncts and a last one, each And the right child of the one before.
fn right_comb(conjuncts: Vec<Expr>, last: Expr) -> Expr {
    let and = |right, left| binary(operator::AND, left, right);
    conjuncts.into_iter().rev().fold(last, and)
}

/// As many conjuncts as fit in 1,024 nodes with a match: calls without arguments, columns and numbers in turn.
fn many_conjuncts(variant: usize) -> Vec<u8> {
    let other = |place: usize| match (place + variant) % 4 {
        0 => call("is_open", Vec::new()),
        1 => column(place % 8),
        2 => number(place as u64),
        _ => call("st_isvalid", Vec::new()),
    };
    let others = (0..510).map(other).collect();
    physical_frame(records(8), with_match(others, matching(), variant))
}

/// Calls over as many columns as they may have.
fn wide_functions(variant: usize) -> Vec<u8> {
    let columns = |first: usize| {
        (first..first + 16)
            .map(|number| column(number % 64))
            .collect()
    };
    let others = (0..56).map(|place| call("coalesce", columns(16 * place + variant)));
    physical_frame(
        records(64),
        with_match(others.collect(), matching(), variant),
    )
}

/// Relations, distances and KNN calls that do not match, since both geometries are of one child.
fn near_misses(variant: usize) -> Vec<u8> {
    let other = |place: usize| match (place + variant) % 4 {
        0 => call("st_intersects", vec![column(0), column(2)]),
        1 => {
            let distance = call("st_distance", vec![column(1), column(3)]);
            binary(operator::LT, distance, number(5))
        }
        2 => call("st_knn", vec![column(0), column(2), number(place as u64)]),
        _ => call(
            "st_dwithin",
            vec![column(1), column(3), number(place as u64)],
        ),
    };
    let others = (0..170).map(other).collect();
    physical_frame(records(4), with_match(others, matching(), variant))
}

/// KNN calls that do not match, each of which makes the original build a map of all left columns;
/// and a comb of Ands, at each tooth of which it looks through all calls below once more.
fn worst_for_rust() -> Vec<u8> {
    let mut records = records(MAX_RECORDS);
    for record in &mut records {
        record.side = Side::Left;
    }
    records[1].side = Side::Right;
    let knn = call("st_knn", vec![number(5), column(0)]);
    let block = tree(vec![knn.clone(); 192]);
    let expr = comb(block, vec![knn; 50]);
    physical_frame(records, binary(operator::AND, expr, matching()))
}

/// Names of the length of four that are looked for, and nearly one of them; and different records,
/// half of which are referenced, each held to the others.
fn worst_for_ours() -> Vec<u8> {
    let half = MAX_RECORDS / 2;
    let wide = |first: usize| call("st_withim", (first..first + 16).map(column).collect());
    let mut conjuncts: Vec<Expr> = (half..MAX_RECORDS).step_by(16).map(wide).collect();
    conjuncts.extend(vec![call("st_withim", Vec::new()); 438]);
    conjuncts.push(matching());
    physical_frame(records(MAX_RECORDS), tree(conjuncts))
}

/// The nodes with the most text for their bytes, five characters for two: tags of five digits below
/// operators of two.
fn longest_text() -> Vec<u8> {
    let other = Expr::Other {
        tag: u16::MAX,
        children: Vec::new(),
    };
    let wide = tree_of(operator::LAST, vec![other; MAX_NODES / 2 - 2]);
    physical_frame(records(2), binary(operator::AND, wide, matching()))
}

fn logical_column(number: usize) -> Expr {
    Expr::LogicalColumn {
        bits: 1 + (number % 2) as u8,
        tag: number as u16,
    }
}

fn logical_knn() -> Expr {
    call("ST_KNN", vec![logical_column(0), logical_column(1)])
}

fn logical_sized(size: usize, variant: usize) -> Vec<u8> {
    let least = encode::logical(&logical_knn()).len();
    let others = conjuncts_of_bytes(size - least, variant, &logical_column);
    let frame = encode::logical(&with_match(others, logical_knn(), variant));
    assert_eq!(frame.len(), size);
    frame
}

fn logical_nodes(variant: usize) -> Vec<u8> {
    let others = conjuncts_of_nodes(MAX_NODES - 3, variant, &logical_column);
    encode::logical(&with_match(others, logical_knn(), variant))
}

/// A query geometry of many columns, each looked for among all columns of a schema.
fn logical_worst_for_rust() -> Vec<u8> {
    let column = |tag: usize| Expr::LogicalColumn {
        bits: 1,
        tag: tag as u16,
    };
    let low = |first: usize| call("f", (first..first + 16).map(column).collect());
    let middle = |first: usize| call("f", (first..first + 224).step_by(16).map(low).collect());
    let query = call("f", (0..896).step_by(224).map(middle).collect());
    let object = Expr::Literal {
        kind: literal::NULL,
        bytes: [0; 8],
    };
    encode::logical(&call("ST_KNN", vec![query, object]))
}

/// Names of the length of four that are looked for, and nearly one of them.
fn logical_worst_for_ours() -> Vec<u8> {
    let mut conjuncts = vec![call("ST_WITHIM", Vec::new()); 510];
    conjuncts.push(logical_knn());
    encode::logical(&tree(conjuncts))
}
