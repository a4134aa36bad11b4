# The four session guarantees of Terry and others (1994) as contracts of four reads.
type page {
  state text_now: text = "";
  op write(new: text): unit {
    contract true;
    answer unit;
    emit t: text = new when true;
    apply { text_now := t; }
  }
  op read_your_writes(): text {
    contract forall a. soo(a, cur) => vis(a, cur);
    answer text_now;
  }
  op monotonic_reads(): text {
    contract forall a, b. vis(a, b) /\ soo(b, cur) => vis(a, cur);
    answer text_now;
  }
  op monotonic_writes(): text {
    contract forall a, b. soo(a, b) /\ vis(b, cur) => vis(a, cur);
    answer text_now;
  }
  op writes_follow_reads(): text {
    contract forall a, b, c. vis(a, b) /\ soo(b, c) /\ vis(c, cur) => vis(a, cur);
    answer text_now;
  }
}
