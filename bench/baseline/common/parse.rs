//! Sources and contracts, by recursive descent. A nesting of brackets is bounded by `MOST_OPEN`, and any other
//! recursion by `MOST_NODES`.
use super::lex::{Keyword, Kind as TokenKind, Mark, Token, tokens, value};
use super::tree::*;
use super::{Fault, fault};

const MOST_OPEN: u32 = 64;
const MOST_NODES: u32 = 256;

pub fn parse_program(text: &[u8]) -> Result<Program<'_>, Fault> {
    let mut reader = Reader::new(text, tokens(text)?);
    let program = reader.program()?;
    reader.end()?;
    Ok(program)
}

pub fn parse_contract(text: &[u8]) -> Result<Contract<'_>, Fault> {
    let mut reader = Reader::new(text, tokens(text)?);
    let contract = reader.contract()?;
    reader.end()?;
    Ok(contract)
}

struct Reader<'a> {
    text: &'a [u8],
    tokens: Vec<Token>,
    next: usize,
    open: u32,
    nodes: u32,
}

impl<'a> Reader<'a> {
    fn new(text: &'a [u8], tokens: Vec<Token>) -> Self {
        Reader { text, tokens, next: 0, open: 0, nodes: 0 }
    }

    fn kind(&self) -> TokenKind {
        self.tokens[self.next].kind
    }

    fn at(&self) -> u32 {
        self.tokens[self.next].from
    }

    fn unexpected<T>(&self) -> Result<T, Fault> {
        fault(self.at() as usize, "Unexpected")
    }

    fn end(&self) -> Result<(), Fault> {
        if self.kind() == TokenKind::End { Ok(()) } else { self.unexpected() }
    }

    fn is_mark(&self, mark: Mark) -> bool {
        self.kind() == TokenKind::Mark(mark)
    }

    fn is_word(&self, word: Keyword) -> bool {
        self.kind() == TokenKind::Keyword(word)
    }

    fn skip_mark(&mut self, mark: Mark) -> bool {
        let there = self.is_mark(mark);
        self.next += there as usize;
        there
    }

    fn skip_word(&mut self, word: Keyword) -> bool {
        let there = self.is_word(word);
        self.next += there as usize;
        there
    }

    fn mark(&mut self, mark: Mark) -> Result<(), Fault> {
        if self.skip_mark(mark) { Ok(()) } else { self.unexpected() }
    }

    fn word(&mut self, word: Keyword) -> Result<(), Fault> {
        if self.skip_word(word) { Ok(()) } else { self.unexpected() }
    }

    fn slice(&self) -> &'a [u8] {
        let token = self.tokens[self.next];
        &self.text[token.from as usize..token.to as usize]
    }

    fn name(&mut self) -> Result<Name<'a>, Fault> {
        if self.kind() != TokenKind::Name {
            return self.unexpected();
        }
        let name = Name { word: self.slice(), at: self.at() };
        self.next += 1;
        Ok(name)
    }

    fn list<T>(&mut self, between: Mark, item: impl Fn(&mut Self) -> Result<T, Fault>) -> Result<Vec<T>, Fault> {
        let mut items = vec![item(self)?];
        while self.skip_mark(between) {
            items.push(item(self)?);
        }
        Ok(items)
    }

    /// Counts so many nodes made by the token at hand.
    fn node(&mut self, count: u32) -> Result<(), Fault> {
        self.nodes += count;
        if self.nodes > MOST_NODES { fault(self.at() as usize, "Wide") } else { Ok(()) }
    }

    /// Passes a bracket that opens.
    fn opened(&mut self, mark: Mark) -> Result<(), Fault> {
        if !self.is_mark(mark) {
            return self.unexpected();
        }
        self.open += 1;
        if self.open > MOST_OPEN {
            return fault(self.at() as usize, "Deep");
        }
        self.next += 1;
        Ok(())
    }

    fn closed(&mut self, mark: Mark) -> Result<(), Fault> {
        self.mark(mark)?;
        self.open -= 1;
        Ok(())
    }

    fn program(&mut self) -> Result<Program<'a>, Fault> {
        let mut types = vec![self.type_decl()?];
        while self.is_word(Keyword::Type) {
            types.push(self.type_decl()?);
        }
        let mut txns = Vec::new();
        while self.is_word(Keyword::Transaction) {
            txns.push(self.txn_decl()?);
        }
        Ok(Program { types, txns })
    }

    fn type_decl(&mut self) -> Result<TypeDecl<'a>, Fault> {
        let at = self.at();
        self.word(Keyword::Type)?;
        let name = self.name()?;
        self.mark(Mark::BraceOpen)?;
        let mut fields = Vec::new();
        while self.is_word(Keyword::State) {
            fields.push(self.field()?);
        }
        let mut ops = vec![self.op_decl()?];
        while self.is_word(Keyword::Op) {
            ops.push(self.op_decl()?);
        }
        self.mark(Mark::BraceClose)?;
        Ok(TypeDecl { at, name, fields, ops })
    }

    fn field(&mut self) -> Result<Field<'a>, Fault> {
        let at = self.at();
        self.word(Keyword::State)?;
        let name = self.name()?;
        self.mark(Mark::Colon)?;
        let kind = self.any_kind()?;
        self.mark(Mark::Equals)?;
        let init_at = self.at();
        let init = self.init()?;
        self.mark(Mark::Semi)?;
        Ok(Field { at, name, kind, init_at, init })
    }

    fn base(&mut self) -> Result<Base, Fault> {
        let base = match self.kind() {
            TokenKind::Keyword(Keyword::Int) => Base::Int,
            TokenKind::Keyword(Keyword::Bool) => Base::Bool,
            TokenKind::Keyword(Keyword::Text) => Base::Text,
            _ => return self.unexpected(),
        };
        self.next += 1;
        Ok(base)
    }

    fn any_kind(&mut self) -> Result<Kind, Fault> {
        if self.skip_word(Keyword::Unit) {
            return Ok(Kind::Unit);
        }
        if self.skip_word(Keyword::Set) {
            self.mark(Mark::ParenOpen)?;
            let base = self.base()?;
            self.mark(Mark::ParenClose)?;
            return Ok(Kind::Set(base));
        }
        if self.skip_word(Keyword::Map) {
            self.mark(Mark::ParenOpen)?;
            let key = self.base()?;
            self.mark(Mark::Comma)?;
            let base = self.base()?;
            self.mark(Mark::ParenClose)?;
            return Ok(Kind::Map(key, base));
        }
        Ok(Kind::Base(self.base()?))
    }

    fn int(&mut self) -> Result<i64, Fault> {
        if self.kind() != TokenKind::Int {
            return self.unexpected();
        }
        let number = value(self.slice()).unwrap_or(i64::MAX);
        self.next += 1;
        Ok(number)
    }

    fn init(&mut self) -> Result<InitNode<'a>, Fault> {
        if self.skip_mark(Mark::Minus) {
            return Ok(InitNode::Int(-self.int()?));
        }
        let node = match self.kind() {
            TokenKind::Int => return Ok(InitNode::Int(self.int()?)),
            TokenKind::Text => InitNode::Text(self.inside()),
            TokenKind::Keyword(Keyword::True) => InitNode::Bool(true),
            TokenKind::Keyword(Keyword::False) => InitNode::Bool(false),
            TokenKind::Keyword(Keyword::Unit) => InitNode::Unit,
            TokenKind::Keyword(Keyword::Empty) => InitNode::Empty,
            _ => return self.unexpected(),
        };
        self.next += 1;
        Ok(node)
    }

    /// The bytes inside a text's quotes.
    fn inside(&self) -> &'a [u8] {
        let slice = self.slice();
        &slice[1..slice.len() - 1]
    }

    fn op_decl(&mut self) -> Result<OpDecl<'a>, Fault> {
        let at = self.at();
        self.word(Keyword::Op)?;
        let name = self.name()?;
        self.mark(Mark::ParenOpen)?;
        let mut params = Vec::new();
        if !self.is_mark(Mark::ParenClose) {
            params = self.list(Mark::Comma, Self::param)?;
        }
        self.mark(Mark::ParenClose)?;
        self.mark(Mark::Colon)?;
        let kind = self.any_kind()?;
        self.mark(Mark::BraceOpen)?;
        self.word(Keyword::Contract)?;
        let contract = self.contract()?;
        self.mark(Mark::Semi)?;
        self.word(Keyword::Answer)?;
        let answer = self.whole_expr()?;
        self.mark(Mark::Semi)?;
        let effect = if self.is_word(Keyword::Emit) { Some(self.effect()?) } else { None };
        self.mark(Mark::BraceClose)?;
        Ok(OpDecl { at, name, params, kind, contract, answer, effect })
    }

    fn param(&mut self) -> Result<Param<'a>, Fault> {
        let name = self.name()?;
        self.mark(Mark::Colon)?;
        Ok(Param { name, base: self.base()? })
    }

    fn effect(&mut self) -> Result<Effect<'a>, Fault> {
        self.word(Keyword::Emit)?;
        let binds = self.list(Mark::Comma, Self::bind)?;
        self.word(Keyword::When)?;
        let test = self.whole_expr()?;
        self.mark(Mark::Semi)?;
        self.word(Keyword::Apply)?;
        self.mark(Mark::BraceOpen)?;
        let mut stmts = Vec::new();
        while !self.skip_mark(Mark::BraceClose) {
            let target = self.name()?;
            self.mark(Mark::Assign)?;
            let value = self.whole_expr()?;
            self.mark(Mark::Semi)?;
            stmts.push(Stmt { target, value });
        }
        Ok(Effect { binds, test, stmts })
    }

    fn bind(&mut self) -> Result<Bind<'a>, Fault> {
        let name = self.name()?;
        self.mark(Mark::Colon)?;
        let base = self.base()?;
        self.mark(Mark::Equals)?;
        Ok(Bind { name, base, value: self.whole_expr()? })
    }

    fn txn_decl(&mut self) -> Result<TxnDecl<'a>, Fault> {
        let at = self.at();
        self.word(Keyword::Transaction)?;
        let name = self.name()?;
        self.mark(Mark::BraceOpen)?;
        self.word(Keyword::Uses)?;
        let uses = self.list(Mark::Comma, Self::name)?;
        self.mark(Mark::Semi)?;
        self.word(Keyword::Contract)?;
        let contract = self.contract()?;
        self.mark(Mark::Semi)?;
        self.mark(Mark::BraceClose)?;
        Ok(TxnDecl { at, name, uses, contract })
    }

    fn contract(&mut self) -> Result<Contract<'a>, Fault> {
        (self.open, self.nodes) = (0, 0);
        let mut vars = Vec::new();
        if self.skip_word(Keyword::Forall) {
            vars = self.list(Mark::Comma, Self::var)?;
            self.mark(Mark::Dot)?;
        }
        Ok(Contract { vars, body: self.prop()? })
    }

    fn var(&mut self) -> Result<Var<'a>, Fault> {
        let name = self.name()?;
        let mut ops = Vec::new();
        if self.skip_mark(Mark::Colon) {
            ops = self.list(Mark::Bar, Self::name)?;
        }
        Ok(Var { name, ops })
    }

    fn prop(&mut self) -> Result<Prop<'a>, Fault> {
        let left = self.either()?;
        if !self.is_mark(Mark::Implies) {
            return Ok(left);
        }
        self.node(1)?;
        self.next += 1;
        Ok(Prop::Implies(Box::new(left), Box::new(self.prop()?)))
    }

    fn either(&mut self) -> Result<Prop<'a>, Fault> {
        let mut left = self.both()?;
        while self.is_mark(Mark::Either) {
            self.node(1)?;
            self.next += 1;
            left = Prop::Or(Box::new(left), Box::new(self.both()?));
        }
        Ok(left)
    }

    fn both(&mut self) -> Result<Prop<'a>, Fault> {
        let mut left = self.atom()?;
        while self.is_mark(Mark::Both) {
            self.node(1)?;
            self.next += 1;
            left = Prop::And(Box::new(left), Box::new(self.atom()?));
        }
        Ok(left)
    }

    fn atom(&mut self) -> Result<Prop<'a>, Fault> {
        match self.kind() {
            TokenKind::Keyword(Keyword::True) => {
                self.node(1)?;
                self.next += 1;
                Ok(Prop::True)
            }
            TokenKind::Keyword(Keyword::Txn) => self.txn(),
            TokenKind::Mark(Mark::ParenOpen) => {
                self.opened(Mark::ParenOpen)?;
                let prop = self.prop()?;
                self.closed(Mark::ParenClose)?;
                Ok(prop)
            }
            TokenKind::Name | TokenKind::Keyword(Keyword::Cur) => {
                let left = self.point()?;
                if !self.is_mark(Mark::Equals) {
                    return self.unexpected();
                }
                let rel = Rel::Base(RelName::Eq, self.at());
                self.node(2)?;
                self.next += 1;
                Ok(Prop::Apply(rel, left, self.point()?))
            }
            _ => self.application(),
        }
    }

    fn application(&mut self) -> Result<Prop<'a>, Fault> {
        if !self.is_mark(Mark::BracketOpen) && self.rel_name().is_none() {
            return self.unexpected();
        }
        if self.is_mark(Mark::BracketOpen) && self.open == MOST_OPEN {
            return fault(self.at() as usize, "Deep");
        }
        self.node(1)?;
        let rel = self.rel()?;
        self.opened(Mark::ParenOpen)?;
        let left = self.point()?;
        self.mark(Mark::Comma)?;
        let right = self.point()?;
        self.closed(Mark::ParenClose)?;
        Ok(Prop::Apply(rel, left, right))
    }

    fn txn(&mut self) -> Result<Prop<'a>, Fault> {
        let at = self.at();
        self.node(1)?;
        self.next += 1;
        let firsts = self.points()?;
        Ok(Prop::Txn(at, firsts, self.points()?))
    }

    fn points(&mut self) -> Result<Vec<Point<'a>>, Fault> {
        self.mark(Mark::BraceOpen)?;
        let points = self.list(Mark::Comma, |reader| {
            if reader.kind() == TokenKind::Name || reader.is_word(Keyword::Cur) {
                reader.node(1)?;
            }
            reader.point()
        })?;
        self.mark(Mark::BraceClose)?;
        Ok(points)
    }

    fn point(&mut self) -> Result<Point<'a>, Fault> {
        let at = self.at();
        if self.skip_word(Keyword::Cur) {
            return Ok(Point::Cur(at));
        }
        Ok(Point::Named(self.name()?))
    }

    fn rel_name(&self) -> Option<RelName> {
        let TokenKind::Keyword(word) = self.kind() else { return None };
        Some(match word {
            Keyword::Vis => RelName::Vis,
            Keyword::So => RelName::So,
            Keyword::Soo => RelName::Soo,
            Keyword::SameObj => RelName::SameObj,
            Keyword::Eq => RelName::Eq,
            Keyword::Hb => RelName::Hb,
            Keyword::Hbo => RelName::Hbo,
            _ => return None,
        })
    }

    fn rel(&mut self) -> Result<Rel, Fault> {
        if let Some(name) = self.rel_name() {
            let at = self.at();
            self.node(1)?;
            self.next += 1;
            return Ok(Rel::Base(name, at));
        }
        self.opened(Mark::BracketOpen)?;
        let mut left = self.rel_product()?;
        while self.is_mark(Mark::Bar) {
            self.node(1)?;
            self.next += 1;
            left = Rel::Union(Box::new(left), Box::new(self.rel_product()?));
        }
        self.closed(Mark::BracketClose)?;
        Ok(left)
    }

    fn rel_product(&mut self) -> Result<Rel, Fault> {
        let mut left = self.rel()?;
        while self.is_mark(Mark::Amp) {
            self.node(1)?;
            self.next += 1;
            left = Rel::Inter(Box::new(left), Box::new(self.rel()?));
        }
        Ok(left)
    }

    fn whole_expr(&mut self) -> Result<Expr<'a>, Fault> {
        (self.open, self.nodes) = (0, 0);
        self.expr()
    }

    fn expr(&mut self) -> Result<Expr<'a>, Fault> {
        if !self.is_word(Keyword::If) {
            return self.binary(0);
        }
        let at = self.at();
        self.node(1)?;
        self.next += 1;
        let test = self.expr()?;
        self.word(Keyword::Then)?;
        let then = self.expr()?;
        self.word(Keyword::Else)?;
        let other = self.expr()?;
        Ok(Expr { at, node: ExprNode::If(Box::new([test, then, other])) })
    }

    /// The operator at hand and how strongly it binds, from 0.
    fn operator(&self) -> Option<(u32, Binary)> {
        match self.kind() {
            TokenKind::Keyword(word @ Keyword::Or) => Some((0, Binary::Word(word))),
            TokenKind::Keyword(word @ Keyword::And) => Some((1, Binary::Word(word))),
            TokenKind::Mark(mark) => {
                let strength = match mark {
                    Mark::EqEq | Mark::Ne | Mark::Lt | Mark::Le | Mark::Gt | Mark::Ge => 2,
                    Mark::Plus | Mark::Minus => 3,
                    Mark::Star => 4,
                    _ => return None,
                };
                Some((strength, Binary::Mark(mark)))
            }
            _ => None,
        }
    }

    /// Operands joined by operators that bind at least so strongly. Comparisons don't repeat.
    fn binary(&mut self, least: u32) -> Result<Expr<'a>, Fault> {
        let at = self.at();
        let mut left = self.unary()?;
        let mut most = 4;
        while let Some((strength, operator)) = self.operator().filter(|(s, _)| (least..=most).contains(s)) {
            self.node(1)?;
            self.next += 1;
            let right = self.binary(strength + 1)?;
            left = Expr { at, node: ExprNode::Binary(operator, Box::new([left, right])) };
            most = if strength == 2 { 1 } else { strength };
        }
        Ok(left)
    }

    fn unary(&mut self) -> Result<Expr<'a>, Fault> {
        let at = self.at();
        let (negated, minus) = (self.is_word(Keyword::Not), self.is_mark(Mark::Minus));
        if !negated && !minus {
            return self.primary();
        }
        self.node(1)?;
        self.next += 1;
        let inner = Box::new(self.unary()?);
        Ok(Expr { at, node: if negated { ExprNode::Not(inner) } else { ExprNode::Neg(inner) } })
    }

    fn primary(&mut self) -> Result<Expr<'a>, Fault> {
        let at = self.at();
        let node = match self.kind() {
            TokenKind::Int => ExprNode::Int(value(self.slice()).unwrap_or(i64::MAX)),
            TokenKind::Text => ExprNode::Text(self.inside()),
            TokenKind::Keyword(Keyword::True) => ExprNode::Bool(true),
            TokenKind::Keyword(Keyword::False) => ExprNode::Bool(false),
            TokenKind::Keyword(Keyword::Unit) => ExprNode::Unit,
            TokenKind::Name => ExprNode::Var(self.slice()),
            TokenKind::Mark(Mark::ParenOpen) => {
                self.opened(Mark::ParenOpen)?;
                let inner = self.expr()?;
                self.closed(Mark::ParenClose)?;
                return Ok(inner);
            }
            _ => return self.unexpected(),
        };
        self.node(1)?;
        self.next += 1;
        let ExprNode::Var(word) = node else { return Ok(Expr { at, node }) };
        if !self.is_mark(Mark::ParenOpen) {
            return Ok(Expr { at, node });
        }
        self.opened(Mark::ParenOpen)?;
        let arguments = self.list(Mark::Comma, Self::expr)?;
        self.closed(Mark::ParenClose)?;
        Ok(Expr { at, node: ExprNode::Call(word, arguments) })
    }
}
