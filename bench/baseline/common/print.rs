//! A source in its one spelling.
use super::tree::*;

pub fn print_program(program: &Program) -> Vec<u8> {
    let mut out = Printer { out: Vec::new() };
    program.types.iter().for_each(|decl| out.type_decl(decl));
    program.txns.iter().for_each(|decl| out.txn_decl(decl));
    out.out
}

struct Printer {
    out: Vec<u8>,
}

fn rel_name(name: RelName) -> &'static str {
    match name {
        RelName::Vis => "vis",
        RelName::So => "so",
        RelName::Soo => "soo",
        RelName::SameObj => "sameobj",
        RelName::Eq => "eq",
        RelName::Hb => "hb",
        RelName::Hbo => "hbo",
    }
}

fn base(base: Base) -> &'static str {
    match base {
        Base::Int => "int",
        Base::Bool => "bool",
        Base::Text => "text",
    }
}

impl Printer {
    fn text(&mut self, text: &str) {
        self.out.extend_from_slice(text.as_bytes());
    }

    fn bytes(&mut self, bytes: &[u8]) {
        self.out.extend_from_slice(bytes);
    }

    fn quoted(&mut self, bytes: &[u8]) {
        self.text("\"");
        self.bytes(bytes);
        self.text("\"");
    }

    fn number(&mut self, number: i64) {
        use std::io::Write;
        write!(self.out, "{number}").expect("memory");
    }

    fn bool(&mut self, value: bool) {
        self.text(if value { "true" } else { "false" });
    }

    fn list<T>(&mut self, items: &[T], between: &str, item: impl Fn(&mut Self, &T)) {
        for (k, part) in items.iter().enumerate() {
            if k > 0 {
                self.text(between);
            }
            item(self, part);
        }
    }

    fn names(&mut self, names: &[Name], between: &str) {
        self.list(names, between, |out, name| out.bytes(name.word));
    }

    fn type_decl(&mut self, decl: &TypeDecl) {
        self.text("type ");
        self.bytes(decl.name.word);
        self.text(" {\n");
        decl.fields.iter().for_each(|field| self.field(field));
        decl.ops.iter().for_each(|op| self.op_decl(op));
        self.text("}\n");
    }

    fn field(&mut self, field: &Field) {
        self.text("  state ");
        self.bytes(field.name.word);
        self.text(": ");
        self.kind(field.kind);
        self.text(" = ");
        match field.init {
            InitNode::Int(number) => self.number(number),
            InitNode::Text(text) => self.quoted(text),
            InitNode::Bool(value) => self.bool(value),
            InitNode::Unit => self.text("unit"),
            InitNode::Empty => self.text("empty"),
        }
        self.text(";\n");
    }

    fn kind(&mut self, kind: Kind) {
        match kind {
            Kind::Unit => self.text("unit"),
            Kind::Base(of) => self.text(base(of)),
            Kind::Set(of) => {
                self.text("set(");
                self.text(base(of));
                self.text(")");
            }
            Kind::Map(key, of) => {
                self.text("map(");
                self.text(base(key));
                self.text(", ");
                self.text(base(of));
                self.text(")");
            }
        }
    }

    fn op_decl(&mut self, decl: &OpDecl) {
        self.text("  op ");
        self.bytes(decl.name.word);
        self.text("(");
        self.list(&decl.params, ", ", |out, param| out.typed_name(&param.name, param.base));
        self.text("): ");
        self.kind(decl.kind);
        self.text(" {\n    contract ");
        self.contract(&decl.contract);
        self.text(";\n    answer ");
        self.expr(&decl.answer);
        self.text(";\n");
        if let Some(effect) = &decl.effect {
            self.effect(effect);
        }
        self.text("  }\n");
    }

    fn typed_name(&mut self, name: &Name, of: Base) {
        self.bytes(name.word);
        self.text(": ");
        self.text(base(of));
    }

    fn effect(&mut self, effect: &Effect) {
        self.text("    emit ");
        self.list(&effect.binds, ", ", |out, bind| {
            out.typed_name(&bind.name, bind.base);
            out.text(" = ");
            out.expr(&bind.value);
        });
        self.text(" when ");
        self.expr(&effect.test);
        self.text(";\n    apply {\n");
        for stmt in &effect.stmts {
            self.text("      ");
            self.bytes(stmt.target.word);
            self.text(" := ");
            self.expr(&stmt.value);
            self.text(";\n");
        }
        self.text("    }\n");
    }

    fn txn_decl(&mut self, decl: &TxnDecl) {
        self.text("transaction ");
        self.bytes(decl.name.word);
        self.text(" {\n  uses ");
        self.names(&decl.uses, ", ");
        self.text(";\n  contract ");
        self.contract(&decl.contract);
        self.text(";\n}\n");
    }

    fn contract(&mut self, contract: &Contract) {
        if !contract.vars.is_empty() {
            self.text("forall ");
            self.list(&contract.vars, ", ", |out, var| {
                out.bytes(var.name.word);
                if !var.ops.is_empty() {
                    out.text(": ");
                    out.names(&var.ops, " | ");
                }
            });
            self.text(". ");
        }
        self.prop(&contract.body);
    }

    fn prop(&mut self, prop: &Prop) {
        match prop {
            Prop::True => self.text("true"),
            Prop::Apply(Rel::Base(RelName::Eq, _), left, right) => {
                self.point(left);
                self.text(" = ");
                self.point(right);
            }
            Prop::Apply(rel, left, right) => {
                self.rel(rel);
                self.text("(");
                self.point(left);
                self.text(", ");
                self.point(right);
                self.text(")");
            }
            Prop::And(left, right) => self.joined(left, " /\\ ", right),
            Prop::Or(left, right) => self.joined(left, " \\/ ", right),
            Prop::Implies(left, right) => self.joined(left, " => ", right),
            Prop::Txn(_, firsts, seconds) => {
                self.text("txn{");
                self.list(firsts, ", ", Self::point);
                self.text("}{");
                self.list(seconds, ", ", Self::point);
                self.text("}");
            }
        }
    }

    fn joined(&mut self, left: &Prop, operator: &str, right: &Prop) {
        self.prop_operand(left);
        self.text(operator);
        self.prop_operand(right);
    }

    fn prop_operand(&mut self, prop: &Prop) {
        let bare = matches!(prop, Prop::True | Prop::Apply(..) | Prop::Txn(..));
        self.operand(bare, |out| out.prop(prop));
    }

    fn operand(&mut self, bare: bool, inner: impl FnOnce(&mut Self)) {
        if bare {
            return inner(self);
        }
        self.text("(");
        inner(self);
        self.text(")");
    }

    fn point(&mut self, point: &Point) {
        match point {
            Point::Cur(_) => self.text("cur"),
            Point::Named(name) => self.bytes(name.word),
        }
    }

    fn rel(&mut self, rel: &Rel) {
        let (left, operator, right) = match rel {
            Rel::Base(name, _) => return self.text(rel_name(*name)),
            Rel::Union(left, right) => (left, " | ", right),
            Rel::Inter(left, right) => (left, " & ", right),
        };
        self.text("[");
        self.rel(left);
        self.text(operator);
        self.rel(right);
        self.text("]");
    }

    fn expr(&mut self, expr: &Expr) {
        match &expr.node {
            ExprNode::Int(number) => self.number(*number),
            ExprNode::Text(text) => self.quoted(text),
            ExprNode::Bool(value) => self.bool(*value),
            ExprNode::Unit => self.text("unit"),
            ExprNode::Var(word) => self.bytes(word),
            ExprNode::Call(word, arguments) => {
                self.bytes(word);
                self.text("(");
                self.list(arguments, ", ", Self::expr);
                self.text(")");
            }
            ExprNode::If(parts) => {
                self.text("if ");
                self.expr(&parts[0]);
                self.text(" then ");
                self.expr(&parts[1]);
                self.text(" else ");
                self.expr(&parts[2]);
            }
            ExprNode::Binary(operator, sides) => {
                self.expr_operand(&sides[0]);
                self.text(" ");
                self.bytes(match operator {
                    Binary::Word(word) => word.text(),
                    Binary::Mark(mark) => mark.text(),
                });
                self.text(" ");
                self.expr_operand(&sides[1]);
            }
            ExprNode::Not(inner) => {
                self.text("not ");
                self.expr_operand(inner);
            }
            ExprNode::Neg(inner) => {
                self.text("-");
                self.expr_operand(inner);
            }
        }
    }

    fn expr_operand(&mut self, expr: &Expr) {
        let compound = matches!(
            expr.node,
            ExprNode::If(..) | ExprNode::Binary(..) | ExprNode::Not(..) | ExprNode::Neg(..)
        );
        self.operand(!compound, |out| out.expr(expr));
    }
}
