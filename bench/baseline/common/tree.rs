//! Trees of sources. Words are slices of the source.
use super::lex::{Keyword, Mark};

#[derive(Clone, Copy, Debug)]
pub struct Name<'a> {
    pub word: &'a [u8],
    pub at: u32,
}

#[derive(Clone, Copy, Debug)]
pub enum Point<'a> {
    Cur(u32),
    Named(Name<'a>),
}

pub struct Contract<'a> {
    pub vars: Vec<Var<'a>>,
    pub body: Prop<'a>,
}

pub struct Var<'a> {
    pub name: Name<'a>,
    pub ops: Vec<Name<'a>>,
}

pub enum Prop<'a> {
    True,
    Apply(Rel, Point<'a>, Point<'a>),
    And(Box<Prop<'a>>, Box<Prop<'a>>),
    Or(Box<Prop<'a>>, Box<Prop<'a>>),
    Implies(Box<Prop<'a>>, Box<Prop<'a>>),
    Txn(u32, Vec<Point<'a>>, Vec<Point<'a>>),
}

#[derive(Clone, Copy, Debug, PartialEq, Eq)]
pub enum RelName {
    Vis,
    So,
    Soo,
    SameObj,
    Eq,
    Hb,
    Hbo,
}

#[derive(Clone)]
pub enum Rel {
    Base(RelName, u32),
    Union(Box<Rel>, Box<Rel>),
    Inter(Box<Rel>, Box<Rel>),
}

#[derive(Clone, Copy, Debug, PartialEq, Eq)]
pub enum Base {
    Int,
    Bool,
    Text,
}

#[derive(Clone, Copy, Debug, PartialEq, Eq)]
pub enum Kind {
    Unit,
    Base(Base),
    Set(Base),
    Map(Base, Base),
}

pub struct Expr<'a> {
    pub at: u32,
    pub node: ExprNode<'a>,
}

pub enum ExprNode<'a> {
    Int(i64),
    Text(&'a [u8]),
    Bool(bool),
    Unit,
    Var(&'a [u8]),
    Call(&'a [u8], Vec<Expr<'a>>),
    If(Box<[Expr<'a>; 3]>),
    Binary(Binary, Box<[Expr<'a>; 2]>),
    Not(Box<Expr<'a>>),
    Neg(Box<Expr<'a>>),
}

#[derive(Clone, Copy, Debug, PartialEq, Eq)]
pub enum Binary {
    Word(Keyword),
    Mark(Mark),
}

pub enum InitNode<'a> {
    Int(i64),
    Text(&'a [u8]),
    Bool(bool),
    Unit,
    Empty,
}

pub struct Param<'a> {
    pub name: Name<'a>,
    pub base: Base,
}

pub struct Bind<'a> {
    pub name: Name<'a>,
    pub base: Base,
    pub value: Expr<'a>,
}

pub struct Stmt<'a> {
    pub target: Name<'a>,
    pub value: Expr<'a>,
}

pub struct Effect<'a> {
    pub binds: Vec<Bind<'a>>,
    pub test: Expr<'a>,
    pub stmts: Vec<Stmt<'a>>,
}

pub struct Field<'a> {
    pub at: u32,
    pub name: Name<'a>,
    pub kind: Kind,
    pub init_at: u32,
    pub init: InitNode<'a>,
}

pub struct OpDecl<'a> {
    pub at: u32,
    pub name: Name<'a>,
    pub params: Vec<Param<'a>>,
    pub kind: Kind,
    pub contract: Contract<'a>,
    pub answer: Expr<'a>,
    pub effect: Option<Effect<'a>>,
}

pub struct TypeDecl<'a> {
    pub at: u32,
    pub name: Name<'a>,
    pub fields: Vec<Field<'a>>,
    pub ops: Vec<OpDecl<'a>>,
}

pub struct TxnDecl<'a> {
    pub at: u32,
    pub name: Name<'a>,
    pub uses: Vec<Name<'a>>,
    pub contract: Contract<'a>,
}

pub struct Program<'a> {
    pub types: Vec<TypeDecl<'a>>,
    pub txns: Vec<TxnDecl<'a>>,
}
