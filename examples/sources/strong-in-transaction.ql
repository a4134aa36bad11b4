# Each contract has a level, but a transaction may not use an operation whose level is strong.
type show {
  state left: int = 0;
  op sell(): bool {
    contract forall a: sell. sameobj(a, cur) => vis(a, cur) \/ vis(cur, a) \/ a = cur;
    answer left > 0;
    emit seats: int = 1 when left > 0;
    apply { left := left - seats; }
  }
}
transaction pair { uses sell; contract true; }
