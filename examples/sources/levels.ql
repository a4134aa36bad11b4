# The levels' own formulas as contracts: each operation and each transaction has the level in its name.
type t {
  op at_eventual(): unit {
    contract forall a, b. hbo(a, b) /\ vis(b, cur) => vis(a, cur);
    answer unit;
  }
  op at_causal(): unit {
    contract forall a. hbo(a, cur) => vis(a, cur);
    answer unit;
  }
  op at_wide(): unit {
    contract forall a. hb(a, cur) /\ sameobj(a, cur) => vis(a, cur);
    answer unit;
  }
  op at_strong(): unit {
    contract forall a. sameobj(a, cur) => vis(a, cur) \/ vis(cur, a) \/ a = cur;
    answer unit;
  }
}
transaction at_rc {
  uses at_eventual;
  contract forall a, b, c. txn{a}{b, c} /\ sameobj(b, c) /\ vis(b, a) => vis(c, a);
}
transaction at_mav {
  uses at_eventual;
  contract forall a, b, c, d.
    (txn{a}{b, c} /\ sameobj(b, c) /\ vis(b, a) => vis(c, a)) /\
    (txn{a, b}{c, d} /\ so(a, b) /\ vis(c, a) /\ sameobj(d, b) => vis(d, b));
}
transaction at_rr {
  uses at_eventual;
  contract forall a, b, c, d. txn{a, b}{c, d} /\ vis(c, a) /\ sameobj(d, b) => vis(d, b);
}
