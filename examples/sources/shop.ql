# A shop: the stock of a thing, which may not fall below zero, and a cart that is filled from several places.
# The transactions say what a customer may rely on while filling, glancing at, following and reporting.
type stock { state left: int = 0;
  op restock(n: int): unit { contract true; answer unit;
    emit p: int = n when n > 0; apply { left := left + p; } }
  op reserve(n: int): bool {
    contract forall a: reserve. sameobj(a, cur) => vis(a, cur) \/ vis(cur, a) \/ a = cur;
    answer left >= n;
    emit p: int = n when left >= n; apply { left := left - p; } }
  op stock_left(): int { contract forall a. soo(a, cur) => vis(a, cur); answer left; } }
type cart { state items: map(text, int) = empty;
  op add_item(item: text, n: int): unit {
    contract forall a, b. soo(a, b) /\ vis(b, cur) => vis(a, cur); answer unit;
    emit i: text = item, k: int = n when n > 0;
    apply { items := put(items, i, get(items, i, 0) + k); } }
  op show(): map(text, int) { contract true; answer items; } }
transaction fill { uses add_item; contract true; }
transaction glance { uses show, stock_left;
  contract forall a, b, c. txn{a}{b, c} /\ sameobj(b, c) /\ vis(b, a) => vis(c, a); }
transaction follow { uses show, add_item; contract forall a, b, c, d.
  txn{a, b}{c, d} /\ so(a, b) /\ vis(c, a) /\ sameobj(d, b) => vis(d, b); }
transaction report { uses show, stock_left; contract forall a, b, c, d.
  txn{a, b}{c, d} /\ vis(c, a) /\ sameobj(d, b) => vis(d, b); }
