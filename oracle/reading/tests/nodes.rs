//! Document 02, request 6: the table of nodes.

mod common;

use common::{and, call, extract, frame, frame_of, left, literal, other, right};
use reading::calls::{exchange, load};
use reading::decode;
use reading::frame::Expr;
use reading::nodes::{Node, table};
use reading::refusal::Refusal;

fn node(kind: u8, start: u16, end: u16) -> Node {
    Node { kind, start, end }
}

fn table_of(expr: Expr) -> Vec<Node> {
    table(&decode::physical(&frame_of(Vec::new(), expr)).unwrap())
}

/// The filter of the worked run: 42 bytes.
fn worked() -> Vec<u8> {
    let within = call("st_within", vec![left(), right()]);
    frame(and(within, right()))
}

const WORKED: [Node; 5] = [
    Node {
        kind: 2,
        start: 13,
        end: 42,
    },
    Node {
        kind: 3,
        start: 15,
        end: 37,
    },
    Node {
        kind: 0,
        start: 27,
        end: 32,
    },
    Node {
        kind: 0,
        start: 32,
        end: 37,
    },
    Node {
        kind: 0,
        start: 37,
        end: 42,
    },
];

#[test]
fn tables() {
    assert_eq!(table(&decode::physical(&worked()).unwrap()), WORKED);
    let parents = other(vec![call("f", vec![literal(0, 0)]), other(vec![])]);
    let expected = [
        node(4, 3, 25),
        node(3, 7, 21),
        node(1, 11, 21),
        node(4, 21, 25),
    ];
    assert_eq!(table_of(parents), expected);
    let binary = Expr::binary(5, other(vec![]), literal(0, 0));
    let expected = [node(2, 3, 19), node(4, 5, 9), node(1, 9, 19)];
    assert_eq!(table_of(binary), expected);
}

#[test]
fn a_load_fills_it_and_17_comes_after_9() {
    let frame = worked();
    let load_with = |room: usize, records: usize| {
        let mut table = vec![node(7, 7, 7); records];
        let answer = load(&frame, &mut 0, &mut vec![0; room], &mut table);
        (answer.err().map(Refusal::number), table)
    };
    assert_eq!(load_with(42, 5), (None, WORKED.to_vec()));
    let longer = [&WORKED[..], &[node(7, 7, 7); 2]].concat();
    assert_eq!(load_with(42, 7), (None, longer));
    assert_eq!(load_with(42, 4), (Some(17), vec![node(7, 7, 7); 4]));
    assert_eq!(load_with(41, 4), (Some(9), vec![node(7, 7, 7); 4]));
}

/// What an extract of the worked run's filter answers with this table.
fn extracted(table: &[Node]) -> u8 {
    let answer = extract(&mut 42, &mut worked(), &mut [0; 42], table);
    answer.map_or_else(Refusal::number, |_| 0)
}

#[test]
fn an_extract_looks_at_it() {
    assert_eq!(extracted(&WORKED), 0);
    assert_eq!(extracted(&[&WORKED[..], &[node(7, 7, 7)]].concat()), 0);
    assert_eq!(extracted(&WORKED[..4]), 10);
    assert_eq!(extracted(&[]), 10);
    for index in 0..5 {
        for wrong in [node(1, 0, 0), node(0, 1, 0), node(0, 0, 1)] {
            let mut table = WORKED;
            table[index].kind ^= wrong.kind;
            table[index].start += wrong.start;
            table[index].end += wrong.end;
            assert_eq!(extracted(&table), 10);
        }
    }
    let short = extract(&mut 42, &mut worked(), &mut [0; 41], &WORKED[1..]);
    assert_eq!(short, Err(Refusal::BadPlan));
}

#[test]
fn an_exchange_keeps_it_right_and_an_extraction_needs_none() {
    let (mut n, mut plan, mut scratch) = (42, worked(), [0; 42]);
    exchange(&mut n, &mut plan, &mut scratch).unwrap();
    assert!(extract(&mut n, &mut plan, &mut scratch, &WORKED).is_ok());
    for table in [&WORKED[..], &[]] {
        let again = extract(&mut { n }, &mut plan, &mut scratch, table);
        assert_eq!(again, Err(Refusal::Extracted));
    }
}
