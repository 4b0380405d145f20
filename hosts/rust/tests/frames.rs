//! Frames that are built, every limit of them, and frames and extractions that are read: as the planner has
//! them, byte by byte, on the comparison's sample and on bytes that were changed.

mod common;

use common::{LEFT, RECORDS, RIGHT, bytes, call, extract_plan, frame_of, loaded, table};
use spatialjoin::{
    Conjunct, Conjuncts, DistanceForm, Expression, Extraction, Frame, FrameError, Kind, Literal,
    LogicalFrame, Operator, Predicate, Record, Records, RelationType, Settings, Side,
};
use spatialjoin::{
    MOST_ARGUMENTS, MOST_BYTES, MOST_LEVELS, MOST_NAME, MOST_NODES, MOST_RECORDS, Refusal,
};
use spatialjoin::{exchange, extract_all, load, logical, project};

const LEFT_COLUMN: Record = Record {
    side: Some(Side::Left),
    child: 0,
    tag: 0,
};

fn call_of(name: &str, arguments: &[Expression]) -> Expression {
    Expression::function(name, arguments)
}

/// A frame without records.
fn frame(filter: Expression) -> Frame {
    Records::new().frame(filter)
}

/// What load says of the bytes, if it refuses them for more than a conjunct's arguments.
fn refused(bytes: &[u8]) -> Option<Refusal> {
    let refusal = load(bytes, &mut vec![0; MOST_BYTES], &mut table()).err();
    refusal.filter(|refusal| *refusal != Refusal::TooFewArguments)
}

/// The lines of the comparison's sample that are whole bytes.
fn sample(first: &str) -> Vec<Vec<u8>> {
    let lines = include_str!("../../../crates/spatialjoin/stdin").lines();
    let digits = |line: &&str| {
        let good = |digit: u8| matches!(digit, b'0'..=b'9' | b'a'..=b'f');
        line.starts_with(first) && line.len() % 2 == 0 && line.bytes().all(good)
    };
    lines.filter(digits).map(bytes).collect()
}

/// The extractions among the sample's answers; that of a logical frame has five bytes.
fn extractions() -> Vec<Vec<u8>> {
    let lines = include_str!("../../../crates/spatialjoin/stdout").lines();
    let begins =
        |line: &&str| ["0011", "0012", "0013"].contains(line.get(..4).as_ref().unwrap_or(&""));
    let plans = lines.filter(|line| begins(line) && line.len() > 10);
    plans.map(|line| bytes(&line[2..])).collect()
}

#[test]
fn the_worked_run_is_built_and_read() {
    let mut records = Records::new();
    let right = Record {
        side: Some(Side::Right),
        child: 3,
        tag: 7,
    };
    let left = Record {
        tag: 8,
        ..LEFT_COLUMN
    };
    let geometries = [records.column(right, 7), records.column(left, 8)];
    let filter = call_of("st_within", &geometries).and(records.column(left, 8));
    let built = records.frame(filter).bytes().expect("a good frame");
    let lines = include_str!("../../../examples/worked-run.txt");
    assert_eq!(built, bytes(lines.lines().next().unwrap()));

    let (mut plan, n, table) = loaded(&built);
    let n = extract_plan(&mut plan, n, &mut vec![0; n], &table).unwrap();
    let extraction = Extraction::of(&plan[..n]).unwrap();
    let column = |index, tag| Expression::Column { index, tag };
    let expected = Extraction {
        position: 0,
        predicate: Predicate::Relation {
            relation: RelationType::Contains,
            left: column(0, 8),
            right: column(3, 7),
        },
        remainder: Some(Frame {
            records: vec![left],
            filter: column(0, 8),
        }),
    };
    assert_eq!(extraction, expected);
}

#[test]
fn the_sample_is_read_as_load_reads_it() {
    let frames = sample("");
    let mut whole = 0;
    for bytes in &frames {
        match Frame::of(bytes) {
            Ok(frame) => {
                assert_eq!(refused(bytes), None);
                assert_eq!(frame.bytes().as_ref(), Ok(bytes));
                whole += 1;
            }
            Err(error) => assert_eq!(refused(bytes), Some(error.refusal()), "{error}"),
        }
    }
    assert!(whole > 500 && frames.len() - whole > 500);
}

#[test]
fn logical_frames_are_read_as_the_call_reads_them() {
    let frames = sample("02");
    let mut whole = 0;
    for bytes in &frames {
        match LogicalFrame::of(bytes) {
            Ok(frame) => {
                assert!(logical(bytes).is_ok());
                assert_eq!(frame.bytes().as_ref(), Ok(bytes));
                whole += 1;
            }
            Err(error) => assert_eq!(logical(bytes).err(), Some(error.refusal()), "{error}"),
        }
    }
    assert!(whole > 50 && frames.len() > whole);
}

#[test]
fn extractions_are_read_and_written() {
    let plans = extractions();
    for bytes in &plans {
        let extraction = Extraction::of(bytes).unwrap();
        assert_eq!(extraction.predicate.kind() as u8, bytes[0]);
        assert_eq!(
            Some(extraction.position),
            spatialjoin::position(bytes),
            "{bytes:?}"
        );
        assert_eq!(extraction.bytes().as_ref(), Ok(bytes));
        for end in 0..bytes.len().min(200) {
            assert!(Extraction::of(&bytes[..end]).is_err());
        }
        let longer = [&bytes[..], &[0]].concat();
        if longer.len() <= MOST_BYTES {
            assert_eq!(Extraction::of(&longer), Err(FrameError::BytesAfter(1)));
        }
    }
    assert!(plans.len() > 500);
    let good = frame_of(&[&b"\x01\x03"[..], &[0; 8]].concat());
    assert_eq!(Extraction::of(&good), Err(FrameError::FirstByte(1)));
}

/// Whether exchange finds a good plan, its remainder's arguments left out.
fn held(bytes: &[u8]) -> bool {
    let (mut plan, n) = (bytes.to_vec(), bytes.len());
    if exchange(&mut plan, n, &mut vec![0; n]).is_ok() {
        return true;
    }
    let read = Extraction::of(bytes);
    let left = read.ok().and_then(|extraction| extraction.remainder);
    let left = left.map(|frame| frame.bytes().expect("it was read"));
    left.is_some_and(|left| {
        let loaded = load(&left, &mut vec![0; MOST_BYTES], &mut table());
        loaded == Err(Refusal::TooFewArguments)
    })
}

/// Every byte of a frame of every kind of node, changed to any other.
#[test]
fn changed_frames_are_read_as_load_reads_them() {
    let literal = |kind: u8| [&[1, kind], &[0; 8][..]].concat();
    let nodes = [
        &b"\x02\0"[..],
        &call("st_within", 2),
        LEFT,
        RIGHT,
        &b"\x02\x05"[..],
        &call("f", 2),
        &literal(2),
        &literal(4),
        &b"\x04\0\x07\x02"[..],
        &literal(1),
        &literal(0),
    ];
    let frame = [RECORDS, &nodes.concat()].concat();
    for (at, byte) in changes(frame.len()) {
        let mut other = frame.clone();
        other[at] = byte;
        let read = Frame::of(&other).err().map(|error| error.refusal());
        assert_eq!(read, refused(&other), "byte {at} is {byte}");
    }
}

/// The same of an extraction of each kind; with a first byte of 1 it would be a frame.
#[test]
fn changed_extractions_are_read_as_exchange_reads_them() {
    let five = [&b"\x01\x03\0\0\0\0\0\0\0"[..], &[5]].concat();
    for filter in [
        [&call("st_within", 2)[..], LEFT, RIGHT].concat(),
        [&call("st_dwithin", 3)[..], LEFT, RIGHT, &five].concat(),
        [&call("st_knn", 3)[..], LEFT, RIGHT, &five].concat(),
    ] {
        let (mut plan, n, table) = loaded(&[RECORDS, b"\x02\0", &filter, LEFT].concat());
        let n = extract_plan(&mut plan, n, &mut vec![0; n], &table).unwrap();
        for (at, byte) in changes(n).filter(|change| *change != (0, 1)) {
            let mut other = plan[..n].to_vec();
            other[at] = byte;
            assert_eq!(
                Extraction::of(&other).is_ok(),
                held(&other),
                "byte {at} is {byte}"
            );
        }
    }
}

/// Every place below the length, with every value.
fn changes(length: usize) -> impl Iterator<Item = (usize, u8)> {
    (0..length).flat_map(|at| (0..=255).map(move |byte| (at, byte)))
}

/// A frame at a limit, which load takes; and one over it, with the error that says so.
fn at_and_over(at: Frame, over: Frame, error: FrameError) {
    let bytes = at.bytes().unwrap();
    assert_eq!(refused(&bytes), None, "{error}");
    assert_eq!(Frame::of(&bytes), Ok(at));
    assert_eq!(over.bytes(), Err(error));
}

/// Calls of one argument, one below another.
fn deep(count: usize) -> Expression {
    (1..count).fold(call_of("f", &[]), |inner, _| call_of("f", &[inner]))
}

/// So many nulls below binary operators, of which there is one less.
fn halves(leaves: usize) -> Expression {
    if leaves == 1 {
        return Literal::NULL.into();
    }
    let (left, right) = (halves(leaves / 2), halves(leaves.div_ceil(2)));
    Expression::binary(Operator::from_number(63).unwrap(), left, right)
}

#[test]
fn the_limits_of_a_function() {
    let named = |length| frame(call_of(&"n".repeat(length), &[]));
    let name = |name: &str| FrameError::Name(name.to_owned());
    let long = "n".repeat(MOST_NAME + 1);
    at_and_over(named(1), named(0), name(""));
    at_and_over(named(MOST_NAME), named(MOST_NAME + 1), name(&long));
    let marks = frame(call_of("!~", &[]));
    at_and_over(marks.clone(), frame(call_of("a b", &[])), name("a b"));
    at_and_over(marks, frame(call_of("\u{e9}", &[])), name("\u{e9}"));

    let arguments = |count| frame(call_of("f", &vec![Literal::NULL.into(); count]));
    let children = |count| frame(Expression::other(7, vec![Literal::NULL.into(); count]));
    let many = MOST_ARGUMENTS + 1;
    for of in [arguments, children] {
        at_and_over(of(MOST_ARGUMENTS), of(many), FrameError::Arguments(many));
    }
}

#[test]
fn the_limits_of_an_expression() {
    let over = frame(deep(MOST_LEVELS + 1));
    at_and_over(frame(deep(MOST_LEVELS)), over, FrameError::Levels);
    let most = MOST_NODES / 2;
    let nodes = frame(call_of("f", &[halves(most)]));
    at_and_over(nodes, frame(halves(most + 1)), FrameError::Nodes);
}

#[test]
fn the_limits_of_records() {
    let records = |count: usize, index| Frame {
        records: vec![LEFT_COLUMN; count],
        filter: Expression::Column { index, tag: 0 },
    };
    let (most, many) = (records(MOST_RECORDS, 255), MOST_RECORDS + 1);
    at_and_over(most, records(many, 0), FrameError::Records(many));
    at_and_over(records(2, 1), records(2, 2), FrameError::NoSuchColumn(2));
    let logical = Expression::LogicalColumn {
        left: true,
        right: false,
        tag: 0,
    };
    at_and_over(records(1, 0), frame(logical), FrameError::OtherColumn);
    let physical = LogicalFrame {
        filter: Expression::Column { index: 0, tag: 0 },
    };
    assert_eq!(physical.bytes(), Err(FrameError::OtherColumn));
}

/// 464 calls of 35 bytes, the first of which has a name of its own length, below 32 of 4 bytes, and three records.
fn long(name: usize) -> Frame {
    let call = |row| call_of(&"n".repeat(if row == 0 { name } else { MOST_NAME }), &[]);
    let calls: Vec<Expression> = (0..464).map(call).collect();
    let groups: Vec<Expression> = calls.chunks(16).map(|row| call_of("g", row)).collect();
    let groups: Vec<Expression> = groups.chunks(15).map(|row| call_of("g", row)).collect();
    Frame {
        records: vec![LEFT_COLUMN; 3],
        filter: call_of("g", &groups),
    }
}

#[test]
fn the_limit_of_bytes() {
    assert_eq!(long(30).bytes().map(|bytes| bytes.len()), Ok(MOST_BYTES));
    at_and_over(long(30), long(31), FrameError::Length(MOST_BYTES + 1));
    let mut bytes = long(30).bytes().unwrap();
    bytes.push(0);
    assert_eq!(Frame::of(&bytes), Err(FrameError::Length(MOST_BYTES + 1)));
    assert_eq!(Frame::of(&[]), Err(FrameError::Length(0)));
}

/// An extraction's nodes are counted over the whole, its levels in each part.
#[test]
fn the_limits_of_an_extraction() {
    let of = |left, bound, remainder: Option<Expression>| Extraction {
        position: 0,
        predicate: Predicate::Distance {
            form: DistanceForm::Dwithin,
            side: None,
            left,
            right: Literal::NULL.into(),
            bound,
        },
        remainder: remainder.map(frame),
    };
    let tall = || deep(MOST_LEVELS);
    let good = of(tall(), tall(), Some(tall()));
    assert_eq!(Extraction::of(&good.bytes().unwrap()), Ok(good));
    let taller = of(tall(), tall(), Some(deep(MOST_LEVELS + 1)));
    assert_eq!(taller.bytes(), Err(FrameError::Levels));
    // 511, 1 and 510 nodes in the predicate, then two or three.
    let most = of(halves(256), call_of("f", &[halves(255)]), Some(deep(2)));
    assert!(held(&most.bytes().unwrap()));
    let many = of(halves(256), call_of("f", &[halves(255)]), Some(deep(3)));
    assert_eq!(many.bytes(), Err(FrameError::Nodes));

    let none = Extraction {
        position: 65_535,
        predicate: Predicate::Knn {
            k: 0,
            spheroid: true,
            side: Side::Right,
            ties: Some(true),
            query: Literal::NULL.into(),
            object: Expression::Column { index: 9, tag: 9 },
        },
        remainder: None,
    };
    assert_eq!(none.bytes(), Err(FrameError::OutOfRange("a k")));
}

#[test]
fn every_literal_and_operator() {
    let literals = [
        Literal::Null([9; 8]),
        Literal::Boolean(true),
        Literal::Int32(i32::MIN),
        Literal::Int64(i64::MIN),
        Literal::UInt32(u32::MAX),
        Literal::UInt64(u64::MAX),
        Literal::Other([255; 8]),
    ];
    for (kind, literal) in literals.into_iter().enumerate() {
        let frame = frame(literal.into());
        let bytes = frame.bytes().unwrap();
        assert_eq!(usize::from(bytes[4]), kind);
        assert_eq!(refused(&bytes), None);
        assert_eq!(Frame::of(&bytes), Ok(frame));
    }
    let number = |number| Operator::from_number(number).map(Operator::number);
    for kept in 0..=63 {
        assert_eq!(number(kept), Some(kept));
    }
    assert_eq!(number(64), None);
    let named = [
        Operator::AND,
        Operator::LT,
        Operator::LT_EQ,
        Operator::GT,
        Operator::GT_EQ,
    ];
    assert_eq!(named.map(Operator::number), [0, 1, 2, 3, 4]);
}

/// A record that was asked for before gives the same column; of too many no frame is written.
#[test]
fn records_are_collected_once() {
    let mut records = Records::new();
    let record = |child| Record {
        child,
        ..LEFT_COLUMN
    };
    let index = |column| match column {
        Expression::Column { index, tag: 5 } => index,
        other => panic!("{other:?} is no column with tag 5"),
    };
    let mark = Record {
        side: None,
        ..LEFT_COLUMN
    };
    let asked = [record(0), mark, record(1), record(0), mark];
    let indexes = asked.map(|record| index(records.column(record, 5)));
    assert_eq!(indexes, [0, 1, 2, 0, 1]);
    for child in 0..MOST_RECORDS as u16 {
        records.column(record(child), 0);
    }
    let count = MOST_RECORDS + 1;
    let frame = records.frame(Literal::NULL.into());
    assert_eq!(frame.bytes(), Err(FrameError::Records(count)));
}

/// A left and a right column, whose places among the records are their indexes in the children too.
fn both() -> (Records, [Expression; 2]) {
    let mut records = Records::new();
    let columns = [(Side::Left, 0), (Side::Right, 1)].map(|(side, child)| {
        let record = Record {
            side: Some(side),
            child,
            tag: 0,
        };
        records.column(record, 0)
    });
    (records, columns)
}

/// What extract takes of a filter over both columns.
fn taken(filter: Expression) -> Predicate {
    let bytes = both().0.frame(filter).bytes().unwrap();
    let (mut plan, n, table) = loaded(&bytes);
    let n = extract_plan(&mut plan, n, &mut vec![0; n], &table).unwrap();
    Extraction::of(&plan[..n]).unwrap().predicate
}

#[test]
fn relations_by_name() {
    let names = "intersects contains within covers coveredby touches crosses overlaps equals";
    let (_, columns) = both();
    let [left, right] = columns.clone();
    let mut names = names.split(' ');
    for relation in RelationType::ALL {
        let name = format!("st_{}", names.next().unwrap());
        let expected = Predicate::Relation {
            relation,
            left: left.clone(),
            right: right.clone(),
        };
        assert_eq!(taken(call_of(&name, &columns)), expected);
    }
    assert_eq!(names.next(), None);
}

#[test]
fn distances_by_form() {
    let (_, columns) = both();
    let [left, right] = columns.clone();
    let five = Expression::from(Literal::UInt64(5));
    let of = |form, bound: &Expression, side| Predicate::Distance {
        form,
        side,
        left: left.clone(),
        right: right.clone(),
        bound: bound.clone(),
    };
    let length = || call_of("st_distance", &columns);
    let below = |operator| taken(Expression::binary(operator, length(), right.clone()));
    let above = |operator| taken(Expression::binary(operator, five.clone(), length()));
    let (side, none) = (Some(Side::Right), None);
    assert_eq!(below(Operator::LT), of(DistanceForm::Lt, &right, side));
    assert_eq!(below(Operator::LT_EQ), of(DistanceForm::LtEq, &right, side));
    assert_eq!(above(Operator::GT), of(DistanceForm::Gt, &five, none));
    assert_eq!(above(Operator::GT_EQ), of(DistanceForm::GtEq, &five, none));
    let within = call_of("st_dwithin", &[left.clone(), right.clone(), five.clone()]);
    assert_eq!(taken(within), of(DistanceForm::Dwithin, &five, none));
}

#[test]
fn neighbours_by_their_flags() {
    let (_, [left, right]) = both();
    let flag = |flag| Literal::Boolean(flag).into();
    let nearest = |ties, spheroid| Predicate::Knn {
        k: 5,
        spheroid,
        side: Side::Right,
        ties,
        query: right.clone(),
        object: left.clone(),
    };
    let mut arguments = vec![right.clone(), left.clone(), Literal::UInt64(5).into()];
    assert_eq!(taken(call_of("st_knn", &arguments)), nearest(None, false));
    arguments.extend([flag(true), flag(false)]);
    assert_eq!(
        taken(call_of("st_knn", &arguments)),
        nearest(Some(false), true)
    );
    arguments[4] = flag(true);
    assert_eq!(
        taken(call_of("st_knn", &arguments)),
        nearest(Some(true), true)
    );
}

#[test]
fn conjuncts_are_extractions_of_which_nothing_is_left() {
    let filters = [
        [&call("st_within", 2)[..], LEFT, RIGHT],
        [&call("st_knn", 2)[..], LEFT, RIGHT],
    ];
    let filters = filters.map(|filter| filter.concat());
    let frame = [RECORDS, b"\x02\0", &filters.concat()].concat();
    let mut out = vec![0; frame.len()];
    let all = extract_all(&frame, &mut out, Settings::default()).unwrap();
    let conjuncts = Conjuncts::of(&out[..all.length]);
    let read: Vec<Extraction> = conjuncts
        .clone()
        .map(|conjunct| conjunct.extraction().unwrap())
        .collect();
    let kinds = read.iter().map(|one| (one.predicate.kind(), one.position));
    assert_eq!(
        kinds.collect::<Vec<_>>(),
        [(Kind::Knn, 1), (Kind::Relation, 0)]
    );
    for (conjunct, extraction) in conjuncts.zip(read) {
        assert_eq!(extraction.remainder, None);
        let mut plan = extraction.bytes().unwrap();
        assert_eq!(plan, [conjunct.bytes, &[0]].concat());
        let n = plan.len();
        assert_eq!(project(&mut plan, n, &mut vec![0; n], &[0], &[0]), Ok(n));
    }
    let cut = Conjunct {
        kind: Kind::Knn,
        position: 0,
        bytes: &[0x13, 0, 0],
    };
    assert_eq!(cut.extraction(), Err(FrameError::Ends));
}

#[test]
fn an_error_says_what_and_which_refusal() {
    let errors = [
        (
            FrameError::Length(0),
            "0 bytes in the place of 1 to 16384",
            1,
        ),
        (FrameError::FirstByte(17), "it begins with 11", 2),
        (FrameError::Ends, "the bytes end inside a field", 3),
        (FrameError::OutOfRange("a k"), "a k out of range", 4),
        (FrameError::Records(257), "257 records, over 256", 4),
        (FrameError::Levels, "over 64 levels", 5),
        (FrameError::NoSuchColumn(3), "column 3 has no record", 6),
        (FrameError::BytesAfter(2), "2 bytes after the end", 7),
    ];
    for (error, words, refusal) in errors {
        assert_eq!(error.to_string(), words);
        assert_eq!(error.refusal().number(), refusal);
    }
}
