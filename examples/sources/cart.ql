# Lists of things, two for each customer: a cart and a wish list, each an object of this type. What is
# moved from one to the other is seen in both or in neither.
type list {
  state items: map(text, int) = empty;

  op put_in(item: text, n: int): unit {
    contract true;
    answer unit;
    emit i: text = item, k: int = n when n > 0;
    apply { items := put(items, i, get(items, i, 0) + k); }
  }

  op take_out(item: text, n: int): unit {
    contract true;
    answer unit;
    emit i: text = item, k: int = n when n > 0;
    apply {
      items := put(items, i, get(items, i, 0) - k);
      items := if get(items, i, 0) > 0 then items else drop(items, i);
    }
  }

  op items_in(): map(text, int) {
    contract true;
    answer items;
  }
}

transaction move {
  uses take_out, put_in;
  contract true;
}

# Both lists as they were at one moment: of another transaction a look sees all or nothing.
transaction look {
  uses items_in;
  contract forall a, b, c, d. txn{a, b}{c, d} /\ vis(c, a) /\ sameobj(d, b) => vis(d, b);
}

# Enough where the lists are shown one after the other: what the second shows isn't older.
transaction browse {
  uses items_in;
  contract forall a, b, c, d.
    txn{a, b}{c, d} /\ so(a, b) /\ vis(c, a) /\ sameobj(d, b) => vis(d, b);
}
