# A bad source: the contract speaks of `b`, which it doesn't quantify.
type t {
  op touch(): unit { contract forall a. vis(b, cur); answer unit; }
}
