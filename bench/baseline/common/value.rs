//! Values, and what expressions say. Programs are well typed.
use super::lex::{Keyword, Mark};
use super::tree::*;
use std::collections::{BTreeMap, BTreeSet};

const MOST_ENTRIES: usize = 256;

#[derive(Clone, Debug, PartialEq, Eq, PartialOrd, Ord)]
pub enum Scalar {
    Int(i64),
    Bool(bool),
    Text(Box<[u8]>),
}

#[derive(Clone, Debug, PartialEq)]
pub enum Value {
    Unit,
    Scalar(Scalar),
    Set(BTreeSet<Scalar>),
    Map(BTreeMap<Scalar, Scalar>),
}

use Scalar::*;

impl Value {
    pub fn int(number: i64) -> Value {
        Value::Scalar(Int(number))
    }

    fn bool(value: bool) -> Value {
        Value::Scalar(Bool(value))
    }

    pub fn text(bytes: &[u8]) -> Value {
        Value::Scalar(Text(bytes.into()))
    }

    fn number(&self) -> i64 {
        match self {
            Value::Scalar(Int(number)) => *number,
            _ => unreachable!("well typed"),
        }
    }

    pub fn is_true(&self) -> bool {
        matches!(self, Value::Scalar(Bool(true)))
    }

    fn scalar(self) -> Scalar {
        match self {
            Value::Scalar(scalar) => scalar,
            _ => unreachable!("well typed"),
        }
    }

    pub fn initial(kind: Kind, init: &InitNode) -> Value {
        match (init, kind) {
            (InitNode::Int(number), _) => Value::int(*number),
            (InitNode::Bool(value), _) => Value::bool(*value),
            (InitNode::Text(text), _) => Value::text(text),
            (InitNode::Unit, _) => Value::Unit,
            (InitNode::Empty, Kind::Map(..)) => Value::Map(BTreeMap::new()),
            (InitNode::Empty, _) => Value::Set(BTreeSet::new()),
        }
    }

    pub fn print(&self, out: &mut Vec<u8>) {
        match self {
            Value::Unit => out.extend_from_slice(b"unit"),
            Value::Scalar(scalar) => scalar.print(out),
            Value::Set(items) => braced(out, b"{}", items, |out, item| item.print(out)),
            Value::Map(items) => braced(out, b"{:}", items, |out, (key, value)| {
                key.print(out);
                out.extend_from_slice(b": ");
                value.print(out);
            }),
        }
    }
}

fn braced<I: IntoIterator>(out: &mut Vec<u8>, empty: &[u8], items: I, print: impl Fn(&mut Vec<u8>, I::Item)) {
    let mut items = items.into_iter().peekable();
    if items.peek().is_none() {
        return out.extend_from_slice(empty);
    }
    out.push(b'{');
    separated(out, items, print);
    out.push(b'}');
}

pub fn separated<T>(out: &mut Vec<u8>, items: impl Iterator<Item = T>, print: impl Fn(&mut Vec<u8>, T)) {
    for (k, item) in items.enumerate() {
        if k > 0 {
            out.extend_from_slice(b", ");
        }
        print(out, item);
    }
}

impl Scalar {
    pub fn print(&self, out: &mut Vec<u8>) {
        use std::io::Write;
        match self {
            Int(number) => write!(out, "{number}").expect("memory"),
            Bool(value) => write!(out, "{value}").expect("memory"),
            Text(text) => {
                out.push(b'"');
                out.extend_from_slice(text);
                out.push(b'"');
            }
        }
    }
}

/// Names with their values: few at a time.
pub type Scope<'s, 'a> = [&'s [(&'a [u8], Value)]; 2];

pub fn value(expr: &Expr, scope: Scope) -> Value {
    match &expr.node {
        ExprNode::Int(number) => Value::int(*number),
        ExprNode::Text(text) => Value::text(text),
        ExprNode::Bool(value) => Value::bool(*value),
        ExprNode::Unit => Value::Unit,
        ExprNode::Var(name) => named(scope, name).clone(),
        ExprNode::Not(inner) => Value::bool(!value(inner, scope).is_true()),
        ExprNode::Neg(inner) => Value::int(value(inner, scope).number().checked_neg().unwrap_or(i64::MAX)),
        ExprNode::If(parts) => {
            let [test, then, other] = &**parts;
            value(if value(test, scope).is_true() { then } else { other }, scope)
        }
        ExprNode::Binary(operator, parts) => binary(*operator, parts, scope),
        ExprNode::Call(name, arguments) => called(name, arguments, scope),
    }
}

fn named<'s>(scope: Scope<'s, '_>, name: &[u8]) -> &'s Value {
    let [first, second] = scope;
    let found = first.iter().chain(second).find(|(other, _)| *other == name);
    &found.expect("well typed").1
}

fn binary(operator: Binary, parts: &[Expr; 2], scope: Scope) -> Value {
    let left = value(&parts[0], scope);
    match operator {
        Binary::Word(Keyword::And) if !left.is_true() => return left,
        Binary::Word(Keyword::Or) if left.is_true() => return left,
        Binary::Word(_) => return value(&parts[1], scope),
        Binary::Mark(_) => {}
    }
    let right = value(&parts[1], scope);
    let Binary::Mark(mark) = operator else { unreachable!("a mark") };
    match mark {
        Mark::EqEq => Value::bool(left == right),
        Mark::Ne => Value::bool(left != right),
        Mark::Lt => Value::bool(left.number() < right.number()),
        Mark::Le => Value::bool(left.number() <= right.number()),
        Mark::Gt => Value::bool(left.number() > right.number()),
        Mark::Ge => Value::bool(left.number() >= right.number()),
        Mark::Plus => Value::int(left.number().saturating_add(right.number())),
        Mark::Minus => Value::int(left.number().saturating_sub(right.number())),
        _ => Value::int(left.number().saturating_mul(right.number())),
    }
}

fn called(name: &[u8], arguments: &[Expr], scope: Scope) -> Value {
    let mut given = arguments.iter().map(|argument| value(argument, scope));
    let mut next = || given.next().expect("well typed");
    match (name, next()) {
        (b"has", Value::Set(items)) => Value::bool(items.contains(&next().scalar())),
        (b"has", Value::Map(items)) => Value::bool(items.contains_key(&next().scalar())),
        (b"size", Value::Set(items)) => Value::int(items.len() as i64),
        (b"size", Value::Map(items)) => Value::int(items.len() as i64),
        (b"sum", Value::Map(items)) => sum(&items),
        (b"get", Value::Map(items)) => {
            let (key, otherwise) = (next().scalar(), next());
            items.get(&key).map_or(otherwise, |found| Value::Scalar(found.clone()))
        }
        (b"add", Value::Set(mut items)) => {
            add(&mut items, next().scalar());
            Value::Set(items)
        }
        (b"union", Value::Set(items)) => united(items, next()),
        (b"remove", Value::Set(mut items)) => {
            items.remove(&next().scalar());
            Value::Set(items)
        }
        (b"drop", Value::Map(mut items)) => {
            items.remove(&next().scalar());
            Value::Map(items)
        }
        (b"put", Value::Map(mut items)) => {
            let (key, item) = (next().scalar(), next().scalar());
            if items.len() < MOST_ENTRIES || items.contains_key(&key) {
                items.insert(key, item);
            }
            Value::Map(items)
        }
        _ => unreachable!("well typed"),
    }
}

fn sum(items: &BTreeMap<Scalar, Scalar>) -> Value {
    let number = |item: &Scalar| if let Int(number) = item { *number } else { 0 };
    Value::int(items.values().map(number).fold(0, i64::saturating_add))
}

fn united(mut items: BTreeSet<Scalar>, others: Value) -> Value {
    if let Value::Set(others) = others {
        others.into_iter().for_each(|item| add(&mut items, item));
    }
    Value::Set(items)
}

fn add(items: &mut BTreeSet<Scalar>, item: Scalar) {
    if items.len() < MOST_ENTRIES {
        items.insert(item);
    }
}
