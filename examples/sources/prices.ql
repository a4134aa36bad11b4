# A list of prices, and a board of notices of their changes. Who has read a notice also gets the new price.
type prices {
  state prices: map(text, int) = empty;

  op set_price(item: text, n: int): unit {
    contract true;
    answer unit;
    emit i: text = item, p: int = n when n > 0;
    apply { prices := put(prices, i, p); }
  }

  # The session may know of a change by way of the board alone: it is before the notice, and the notice before this look.
  op price_of(item: text): int {
    contract forall a. hb(a, cur) /\ sameobj(a, cur) => vis(a, cur);
    answer get(prices, item, 0);
  }
}
type board {
  state notices: set(text) = empty;

  op post(notice: text): unit {
    contract true;
    answer unit;
    emit n: text = notice when true;
    apply { notices := add(notices, n); }
  }

  op read(): set(text) {
    contract forall a. soo(a, cur) => vis(a, cur);
    answer notices;
  }
}
