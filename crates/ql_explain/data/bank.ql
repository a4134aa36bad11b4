# A bank account. Deposits need no agreement. Withdrawals are ordered among themselves, so that two of them
# can't both take the last money. A balance shows what its own view shows.
type account {
  state balance: int = 0;
  op deposit(n: int): unit { contract true; answer unit;
    emit p: int = n when true; apply { balance := balance + p; } }
  op withdraw(n: int): bool {
    contract forall a: withdraw. sameobj(a, cur) => vis(a, cur) \/ vis(cur, a) \/ a = cur;
    answer balance >= n;
    emit p: int = n when balance >= n; apply { balance := balance - p; } }
  op getbalance(): int {
    contract forall a, b. vis(a, b) /\ vis(b, cur) => vis(a, cur); answer balance; }
}
transaction audit { uses deposit, getbalance;
  contract forall a, b, c, d. txn{a, b}{c, d} /\ vis(c, a) /\ sameobj(d, b) => vis(d, b); }
transaction peek { uses deposit, getbalance;
  contract forall a, b, c. txn{a}{b, c} /\ sameobj(b, c) /\ vis(b, a) => vis(c, a); }
transaction trail { uses deposit, getbalance;
  contract forall a, b, c, d. (txn{a}{b, c} /\ sameobj(b, c) /\ vis(b, a) => vis(c, a))
    /\ (txn{a, b}{c, d} /\ so(a, b) /\ vis(c, a) /\ sameobj(d, b) => vis(d, b)); }
