//! Document 02, request 1: an expression as text for the console.

use crate::frame::Expr;
use crate::program::hex;

/// The text of a physical expression. A logical column, which no physical frame has, has none.
pub fn text(expr: &Expr) -> Vec<u8> {
    let mut out = Vec::new();
    put_expr(expr, &mut out);
    out
}

fn put_expr(expr: &Expr, out: &mut Vec<u8>) {
    match expr {
        Expr::Column { index, tag } => out.extend(format!("c{index}:{tag}").bytes()),
        Expr::Literal { kind, bytes } => {
            out.extend(format!("#{kind}:").bytes());
            out.extend(hex(bytes));
        }
        Expr::Binary { op, left, right } => {
            out.push(b'(');
            put_expr(left, out);
            out.extend(format!(" o{op} ").bytes());
            put_expr(right, out);
            out.push(b')');
        }
        Expr::Function { name, args } => {
            out.extend(format!("f{}:", name.len()).bytes());
            out.extend(name);
            put_list(args, out);
        }
        Expr::Other { tag, children } => {
            out.extend(format!("x{tag}").bytes());
            put_list(children, out);
        }
        Expr::LogicalColumn { .. } => (),
    }
}

/// In brackets, with commas between.
fn put_list(exprs: &[Expr], out: &mut Vec<u8>) {
    out.push(b'[');
    for (place, expr) in exprs.iter().enumerate() {
        if place > 0 {
            out.push(b',');
        }
        put_expr(expr, out);
    }
    out.push(b']');
}
