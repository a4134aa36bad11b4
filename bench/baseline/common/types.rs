//! Typing, and contracts with names resolved. All faults are gathered; the least place counts, there the
//! first rule.
use super::Fault;
use super::lex::{Keyword, Mark};
use super::tree::*;
use std::collections::{HashMap, HashSet};

const RULES: [&str; 7] = ["Unknown", "Twice", "Kind", "TooMany", "TxnClosure", "Variables", "TxnAtom"];
pub const UNKNOWN: usize = 0;
pub const TWICE: usize = 1;
pub const KIND: usize = 2;
pub const TOO_MANY: usize = 3;
pub const TXN_CLOSURE: usize = 4;
pub const VARIABLES: usize = 5;
pub const TXN_ATOM: usize = 6;

pub const MOST_VARIABLES: usize = 5;

#[derive(Clone, Copy, Debug, PartialEq, Eq)]
pub enum Term {
    Cur,
    Var(usize),
}

pub enum Body {
    True,
    Apply(Rel, Term, Term),
    And(Box<Body>, Box<Body>),
    Or(Box<Body>, Box<Body>),
    Implies(Box<Body>, Box<Body>),
    Txn(Vec<Term>, Vec<Term>),
}

/// A contract with names resolved. Of each variable there are its name and the operations that it names.
pub struct Formula<'a> {
    pub vars: Vec<(&'a [u8], Option<Vec<u32>>)>,
    pub body: Body,
}

pub struct Typed<'a> {
    pub op_names: Vec<&'a [u8]>,
    pub op_types: Vec<u32>,
    pub op_formulas: Vec<Formula<'a>>,
    pub txn_names: Vec<&'a [u8]>,
    pub txn_uses: Vec<Vec<u32>>,
    pub txn_formulas: Vec<Formula<'a>>,
    pub ops: HashMap<&'a [u8], u32>,
    pub txns: HashMap<&'a [u8], u32>,
}

pub fn typecheck<'a>(program: &Program<'a>) -> Result<Typed<'a>, Fault> {
    let decls: Vec<(u32, &OpDecl<'a>)> = program
        .types
        .iter()
        .zip(0..)
        .flat_map(|(decl, of)| decl.ops.iter().map(move |op| (of, op)))
        .collect();
    let mut checker = Checker::default();
    checker.program(program, &decls);
    checker.verdict()?;
    let number = |names: &[&'a [u8]]| names.iter().copied().zip(0..).collect::<HashMap<_, _>>();
    let op_names: Vec<&[u8]> = decls.iter().map(|(_, op)| op.name.word).collect();
    let txn_names: Vec<&[u8]> = program.txns.iter().map(|txn| txn.name.word).collect();
    let ops = number(&op_names);
    Ok(Typed {
        op_types: decls.iter().map(|(of, _)| *of).collect(),
        op_formulas: decls.iter().map(|(_, op)| formula(&op.contract, |word| ops[word])).collect(),
        txn_uses: program.txns.iter().map(|txn| txn.uses.iter().map(|op| ops[op.word]).collect()).collect(),
        txn_formulas: program.txns.iter().map(|txn| formula(&txn.contract, |word| ops[word])).collect(),
        txns: number(&txn_names),
        op_names,
        txn_names,
        ops,
    })
}

/// The formula of a contract without faults.
pub fn formula<'a>(contract: &Contract<'a>, mut op: impl FnMut(&'a [u8]) -> u32) -> Formula<'a> {
    let names: Vec<&[u8]> = contract.vars.iter().map(|var| var.name.word).collect();
    let body = body(&contract.body, &names);
    let ops = contract.vars.iter().map(|var| {
        let ops: Vec<u32> = var.ops.iter().map(|name| op(name.word)).collect();
        (!ops.is_empty()).then_some(ops)
    });
    Formula { vars: names.iter().copied().zip(ops).collect(), body }
}

fn body(prop: &Prop, names: &[&[u8]]) -> Body {
    let term = |point: &Point| match point {
        Point::Cur(_) => Term::Cur,
        Point::Named(name) => Term::Var(names.iter().position(|word| *word == name.word).expect("bound")),
    };
    let part = |prop: &Prop| Box::new(body(prop, names));
    match prop {
        Prop::True => Body::True,
        Prop::Apply(rel, left, right) => Body::Apply(rel.clone(), term(left), term(right)),
        Prop::And(left, right) => Body::And(part(left), part(right)),
        Prop::Or(left, right) => Body::Or(part(left), part(right)),
        Prop::Implies(left, right) => Body::Implies(part(left), part(right)),
        Prop::Txn(_, firsts, seconds) => {
            Body::Txn(firsts.iter().map(term).collect(), seconds.iter().map(term).collect())
        }
    }
}

#[derive(Default)]
pub struct Checker {
    pub faults: Vec<(u32, usize)>,
}

type Scope<'a> = HashMap<&'a [u8], Kind>;

impl Checker {
    fn verdict(&self) -> Result<(), Fault> {
        match self.faults.iter().min() {
            None => Ok(()),
            Some((at, rule)) => Err(Fault { at: *at as usize, rule: RULES[*rule] }),
        }
    }

    fn note(&mut self, at: u32, rule: usize) {
        self.faults.push((at, rule));
    }

    fn distinct<'a>(&mut self, names: impl Iterator<Item = Name<'a>>) {
        let mut before = HashSet::new();
        for name in names {
            if !before.insert(name.word) {
                self.note(name.at, TWICE);
            }
        }
    }

    fn at_most(&mut self, places: impl Iterator<Item = u32>, most: usize, rule: usize) {
        places.skip(most).for_each(|at| self.note(at, rule));
    }

    fn program<'a>(&mut self, program: &Program<'a>, decls: &[(u32, &OpDecl<'a>)]) {
        self.distinct(program.types.iter().map(|decl| decl.name));
        self.distinct(decls.iter().map(|(_, op)| op.name));
        self.distinct(program.txns.iter().map(|txn| txn.name));
        self.at_most(program.types.iter().map(|decl| decl.at), 16, TOO_MANY);
        self.at_most(decls.iter().map(|(_, op)| op.at), 32, TOO_MANY);
        self.at_most(program.txns.iter().map(|txn| txn.at), 16, TOO_MANY);
        let known: HashSet<&[u8]> = decls.iter().map(|(_, op)| op.name.word).collect();
        for decl in &program.types {
            let fields = self.fields(decl);
            decl.ops.iter().for_each(|op| self.op(op, &fields, &known));
        }
        for txn in &program.txns {
            self.distinct(txn.uses.iter().copied());
            for op in txn.uses.iter().filter(|op| !known.contains(op.word)) {
                self.note(op.at, UNKNOWN);
            }
            self.contract(&txn.contract, Some(&known), true);
        }
    }

    fn fields<'a>(&mut self, decl: &TypeDecl<'a>) -> Scope<'a> {
        self.distinct(decl.fields.iter().map(|field| field.name));
        self.at_most(decl.fields.iter().map(|field| field.at), 16, TOO_MANY);
        let mut scope = Scope::new();
        for field in &decl.fields {
            scope.entry(field.name.word).or_insert(field.kind);
            let fits = match field.init {
                InitNode::Int(_) => field.kind == Kind::Base(Base::Int),
                InitNode::Text(_) => field.kind == Kind::Base(Base::Text),
                InitNode::Bool(_) => field.kind == Kind::Base(Base::Bool),
                InitNode::Unit => field.kind == Kind::Unit,
                InitNode::Empty => matches!(field.kind, Kind::Set(_) | Kind::Map(..)),
            };
            if !fits {
                self.note(field.init_at, KIND);
            }
        }
        scope
    }

    /// The fields and names, where fields come first; a name that stands before is a fault.
    fn within<'a>(&mut self, fields: &Scope<'a>, names: impl Iterator<Item = (Name<'a>, Base)>, most: usize) -> Scope<'a> {
        let mut scope = fields.clone();
        for (k, (name, base)) in names.enumerate() {
            if scope.contains_key(name.word) {
                self.note(name.at, TWICE);
            }
            scope.entry(name.word).or_insert(Kind::Base(base));
            if k >= most {
                self.note(name.at, TOO_MANY);
            }
        }
        scope
    }

    fn op<'a>(&mut self, op: &OpDecl<'a>, fields: &Scope<'a>, known: &HashSet<&[u8]>) {
        let scope = self.within(fields, op.params.iter().map(|param| (param.name, param.base)), 8);
        self.contract(&op.contract, Some(known), false);
        self.want(&op.answer, op.kind, &scope);
        let Some(effect) = &op.effect else { return };
        let inner = self.within(fields, effect.binds.iter().map(|bind| (bind.name, bind.base)), 4);
        for bind in &effect.binds {
            self.want(&bind.value, Kind::Base(bind.base), &scope);
        }
        self.want(&effect.test, Kind::Base(Base::Bool), &scope);
        self.at_most(effect.stmts.iter().map(|stmt| stmt.target.at), 64, TOO_MANY);
        for stmt in &effect.stmts {
            match fields.get(stmt.target.word) {
                Some(kind) => {
                    self.want(&stmt.value, *kind, &inner);
                }
                None => {
                    self.note(stmt.target.at, UNKNOWN);
                    self.kind(&stmt.value, &inner);
                }
            }
        }
    }

    /// Whether an expression has no fault inside and a kind; another kind is a fault.
    fn want(&mut self, expr: &Expr, wanted: Kind, scope: &Scope) -> bool {
        match self.kind(expr, scope) {
            None => false,
            Some(kind) if kind == wanted => true,
            Some(_) => {
                self.note(expr.at, KIND);
                false
            }
        }
    }

    /// The kind of an expression; none where there is a fault inside.
    fn kind(&mut self, expr: &Expr, scope: &Scope) -> Option<Kind> {
        let bool = Kind::Base(Base::Bool);
        let int = Kind::Base(Base::Int);
        match &expr.node {
            ExprNode::Int(_) => Some(int),
            ExprNode::Text(_) => Some(Kind::Base(Base::Text)),
            ExprNode::Bool(_) => Some(bool),
            ExprNode::Unit => Some(Kind::Unit),
            ExprNode::Var(word) => {
                let kind = scope.get(word).copied();
                if kind.is_none() {
                    self.note(expr.at, UNKNOWN);
                }
                kind
            }
            ExprNode::Not(inner) => self.want(inner, bool, scope).then_some(bool),
            ExprNode::Neg(inner) => self.want(inner, int, scope).then_some(int),
            ExprNode::If(parts) => self.if_kind(parts, scope),
            ExprNode::Binary(operator, sides) => self.binary_kind(*operator, sides, scope),
            ExprNode::Call(word, arguments) => self.call_kind(expr.at, word, arguments, scope),
        }
    }

    fn if_kind(&mut self, [test, then, other]: &[Expr; 3], scope: &Scope) -> Option<Kind> {
        let tested = self.want(test, Kind::Base(Base::Bool), scope);
        let Some(kind) = self.kind(then, scope) else {
            self.kind(other, scope);
            return None;
        };
        (self.want(other, kind, scope) && tested).then_some(kind)
    }

    fn binary_kind(&mut self, operator: Binary, [left, right]: &[Expr; 2], scope: &Scope) -> Option<Kind> {
        let bool = Kind::Base(Base::Bool);
        let int = Kind::Base(Base::Int);
        let (wanted, result) = match operator {
            Binary::Word(Keyword::And | Keyword::Or) => (bool, bool),
            Binary::Mark(Mark::Plus | Mark::Minus | Mark::Star) => (int, int),
            Binary::Mark(Mark::Lt | Mark::Le | Mark::Gt | Mark::Ge) => (int, bool),
            _ => {
                let mut kind = self.kind(left, scope);
                if kind.is_some_and(|kind| !matches!(kind, Kind::Base(_))) {
                    self.note(left.at, KIND);
                    kind = None;
                }
                let Some(kind) = kind else {
                    self.kind(right, scope);
                    return None;
                };
                return self.want(right, kind, scope).then_some(bool);
            }
        };
        let left = self.want(left, wanted, scope);
        let right = self.want(right, wanted, scope);
        (left && right).then_some(result)
    }

    fn call_kind(&mut self, at: u32, word: &[u8], arguments: &[Expr], scope: &Scope) -> Option<Kind> {
        let count = match word {
            b"size" | b"sum" => 1,
            b"has" | b"add" | b"remove" | b"union" | b"drop" => 2,
            b"put" | b"get" => 3,
            _ => {
                self.note(at, UNKNOWN);
                0
            }
        };
        if count != arguments.len() {
            if count != 0 {
                self.note(at, KIND);
            }
            for argument in arguments {
                self.kind(argument, scope);
            }
            return None;
        }
        let found = self.kind(&arguments[0], scope);
        let shape = found.and_then(|kind| shape(word, kind));
        if found.is_some() && shape.is_none() {
            self.note(arguments[0].at, KIND);
        }
        let Some((wanted, result)) = shape else {
            for argument in &arguments[1..] {
                self.kind(argument, scope);
            }
            return None;
        };
        let mut good = true;
        for (argument, kind) in arguments[1..].iter().zip(wanted) {
            good &= self.want(argument, kind, scope);
        }
        good.then_some(result)
    }

    pub fn contract(&mut self, contract: &Contract, known: Option<&HashSet<&[u8]>>, for_txn: bool) {
        self.distinct(contract.vars.iter().map(|var| var.name));
        self.at_most(contract.vars.iter().map(|var| var.name.at), MOST_VARIABLES, VARIABLES);
        for var in &contract.vars {
            self.distinct(var.ops.iter().copied());
            for op in &var.ops {
                if known.is_some_and(|known| !known.contains(op.word)) {
                    self.note(op.at, UNKNOWN);
                }
            }
        }
        let names: Vec<&[u8]> = contract.vars.iter().map(|var| var.name.word).collect();
        self.prop(&contract.body, &names, for_txn);
    }

    fn prop(&mut self, prop: &Prop, names: &[&[u8]], for_txn: bool) {
        match prop {
            Prop::True => {}
            Prop::Apply(rel, left, right) => {
                self.rel(rel, for_txn);
                self.point(left, names, for_txn);
                self.point(right, names, for_txn);
            }
            Prop::And(left, right) | Prop::Or(left, right) | Prop::Implies(left, right) => {
                self.prop(left, names, for_txn);
                self.prop(right, names, for_txn);
            }
            Prop::Txn(at, firsts, seconds) => {
                if !for_txn {
                    self.note(*at, TXN_ATOM);
                }
                firsts.iter().chain(seconds).for_each(|point| self.point(point, names, for_txn));
            }
        }
    }

    fn rel(&mut self, rel: &Rel, for_txn: bool) {
        match rel {
            Rel::Base(RelName::Hb | RelName::Hbo, at) if for_txn => self.note(*at, TXN_CLOSURE),
            Rel::Base(..) => {}
            Rel::Union(left, right) | Rel::Inter(left, right) => {
                self.rel(left, for_txn);
                self.rel(right, for_txn);
            }
        }
    }

    fn point(&mut self, point: &Point, names: &[&[u8]], for_txn: bool) {
        match point {
            Point::Cur(at) if for_txn => self.note(*at, UNKNOWN),
            Point::Named(name) if !names.contains(&name.word) => self.note(name.at, UNKNOWN),
            _ => {}
        }
    }
}

/// The kinds that a function wants after its first argument, of such a kind, and that of its value.
fn shape(word: &[u8], first: Kind) -> Option<(Vec<Kind>, Kind)> {
    let int = Kind::Base(Base::Int);
    let bool = Kind::Base(Base::Bool);
    Some(match (word, first) {
        (b"has", Kind::Set(key) | Kind::Map(key, _)) => (vec![Kind::Base(key)], bool),
        (b"size", Kind::Set(_) | Kind::Map(..)) => (vec![], int),
        (b"sum", Kind::Map(_, Base::Int)) => (vec![], int),
        (b"add" | b"remove", Kind::Set(key)) => (vec![Kind::Base(key)], first),
        (b"union", Kind::Set(_)) => (vec![first], first),
        (b"put", Kind::Map(key, value)) => (vec![Kind::Base(key), Kind::Base(value)], first),
        (b"drop", Kind::Map(key, _)) => (vec![Kind::Base(key)], first),
        (b"get", Kind::Map(key, value)) => (vec![Kind::Base(key), Kind::Base(value)], Kind::Base(value)),
        _ => return None,
    })
}
