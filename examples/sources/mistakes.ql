# A stall whose contracts have mistakes, of each sort one. All are programs that `classify` takes.
type stall {
  state left: int = 0;
  # The variable has the operation's name, and stands for any effect.
  op sell(n: int): bool {
    contract forall sell. sameobj(sell, cur) => vis(sell, cur) \/ vis(cur, sell) \/ sell = cur;
    answer n <= left;
    emit k: int = n when n <= left; apply { left := left - k; } }
  # Two statements without brackets: what is wanted is among what is supposed.
  op look(): int {
    contract forall a, b. soo(a, cur) => vis(a, cur) /\ vis(a, b) /\ soo(b, cur) => vis(a, cur);
    answer left; }
  # Who is before the other in one session and on one object is on that object.
  op own(): int {
    contract forall a: sell. sameobj(a, cur) /\ soo(a, cur) => vis(a, cur);
    answer left; }
  # No effect of a diary is ever seen at a stall.
  op check(): int {
    contract forall a: sell, b: note. so(a, b) /\ vis(b, cur) => vis(a, cur);
    answer left; }
  # This is the contract of the sales, not of the count.
  op count(): int {
    contract forall a: sell, b: sell. vis(a, cur) /\ vis(b, cur) => vis(a, b) \/ vis(b, a) \/ a = b;
    answer left; }
}
type diary {
  op note(): unit { contract true; answer unit; }
}
