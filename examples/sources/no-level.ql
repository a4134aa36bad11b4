# A contract that no level implies: it asks that a sale sees all sales of the show, those to come too.
# The order that is meant is `vis(a, cur) \/ vis(cur, a) \/ a = cur`, as in tickets.ql.
type show {
  state sold: int = 0;
  op sell(): int {
    contract forall a: sell. sameobj(a, cur) => vis(a, cur);
    answer sold;
    emit one: int = 1 when true;
    apply { sold := sold + one; }
  }
}
