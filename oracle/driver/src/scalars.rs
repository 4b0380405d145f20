//! Operators and literals: a frame's numbers against DataFusion's values, both ways.

use datafusion_common::ScalarValue;
use datafusion_expr::Operator;
use reading::frame::literal;

/// A frame's operator 0 is the first of these, and so on.
const OPERATORS: [Operator; 31] = [
    Operator::And,
    Operator::Lt,
    Operator::LtEq,
    Operator::Gt,
    Operator::GtEq,
    Operator::Or,
    Operator::Eq,
    Operator::NotEq,
    Operator::Plus,
    Operator::Minus,
    Operator::Multiply,
    Operator::Divide,
    Operator::Modulo,
    Operator::IsDistinctFrom,
    Operator::IsNotDistinctFrom,
    Operator::RegexMatch,
    Operator::RegexIMatch,
    Operator::RegexNotMatch,
    Operator::RegexNotIMatch,
    Operator::LikeMatch,
    Operator::ILikeMatch,
    Operator::NotLikeMatch,
    Operator::NotILikeMatch,
    Operator::BitwiseAnd,
    Operator::BitwiseOr,
    Operator::BitwiseXor,
    Operator::BitwiseShiftRight,
    Operator::BitwiseShiftLeft,
    Operator::StringConcat,
    Operator::AtArrow,
    Operator::ArrowAt,
];

/// DataFusion's operator, or nothing for the numbers that are left over.
pub fn operator(number: u8) -> Option<Operator> {
    OPERATORS.get(usize::from(number)).copied()
}

pub fn operator_number(operator: &Operator) -> u8 {
    let position = OPERATORS.iter().position(|known| known == operator);
    position.expect("the operator came from a frame") as u8
}

/// The value of a literal. Null and other are the host's to use: we take from them the values that
/// come nearest to the types that k and the flags may have.
pub fn scalar(kind: u8, bytes: [u8; 8]) -> ScalarValue {
    let value = u64::from_be_bytes(bytes);
    match kind {
        literal::NULL => null(value),
        literal::BOOLEAN => ScalarValue::Boolean(Some(value == 1)),
        literal::INT32 => ScalarValue::Int32(Some(value as i32)),
        literal::INT64 => ScalarValue::Int64(Some(value as i64)),
        literal::UINT32 => ScalarValue::UInt32(Some(value as u32)),
        literal::UINT64 => ScalarValue::UInt64(Some(value)),
        _ => other(value),
    }
}

/// The null of the type of this number; from 6 on the number is put into a time zone's name.
fn null(value: u64) -> ScalarValue {
    match value {
        0 => ScalarValue::Null,
        1 => ScalarValue::Boolean(None),
        2 => ScalarValue::Int32(None),
        3 => ScalarValue::Int64(None),
        4 => ScalarValue::UInt32(None),
        5 => ScalarValue::UInt64(None),
        _ => ScalarValue::TimestampNanosecond(None, Some(value.to_string().into())),
    }
}

/// Small integers of other widths, each in a range of its own; elsewhere a float of these bits.
fn other(value: u64) -> ScalarValue {
    match value >> 16 {
        0 if value < 0x100 => ScalarValue::Int8(Some(value as i8)),
        0 if value < 0x200 => ScalarValue::UInt8(Some(value as u8)),
        1 => ScalarValue::Int16(Some(value as i16)),
        2 => ScalarValue::UInt16(Some(value as u16)),
        _ => ScalarValue::Float64(Some(f64::from_bits(value))),
    }
}

/// Type and bytes of a value that `scalar` made.
pub fn literal_of(value: &ScalarValue) -> (u8, [u8; 8]) {
    let (kind, number) = match value {
        ScalarValue::Boolean(Some(value)) => (literal::BOOLEAN, u64::from(*value)),
        ScalarValue::Int32(Some(value)) => (literal::INT32, i64::from(*value) as u64),
        ScalarValue::Int64(Some(value)) => (literal::INT64, *value as u64),
        ScalarValue::UInt32(Some(value)) => (literal::UINT32, u64::from(*value)),
        ScalarValue::UInt64(Some(value)) => (literal::UINT64, *value),
        _ => null_number(value)
            .map(|number| (literal::NULL, number))
            .or_else(|| other_number(value).map(|number| (literal::OTHER, number)))
            .expect("the value came from a frame"),
    };
    (kind, number.to_be_bytes())
}

fn null_number(value: &ScalarValue) -> Option<u64> {
    match value {
        ScalarValue::Null => Some(0),
        ScalarValue::Boolean(None) => Some(1),
        ScalarValue::Int32(None) => Some(2),
        ScalarValue::Int64(None) => Some(3),
        ScalarValue::UInt32(None) => Some(4),
        ScalarValue::UInt64(None) => Some(5),
        ScalarValue::TimestampNanosecond(None, Some(zone)) => zone.parse().ok(),
        _ => None,
    }
}

fn other_number(value: &ScalarValue) -> Option<u64> {
    match value {
        ScalarValue::Int8(Some(value)) => Some(u64::from(*value as u8)),
        ScalarValue::UInt8(Some(value)) => Some(0x100 | u64::from(*value)),
        ScalarValue::Int16(Some(value)) => Some(0x1_0000 | u64::from(*value as u16)),
        ScalarValue::UInt16(Some(value)) => Some(0x2_0000 | u64::from(*value)),
        ScalarValue::Float64(Some(value)) => Some(value.to_bits()),
        _ => None,
    }
}
