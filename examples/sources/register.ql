# A register that keeps the last text written. A read sees the earlier effects of its own session.
type reg { state v: text = "";
  op write(t: text): unit { contract true; answer unit;
    emit p: text = t when true; apply { v := p; } }
  op read(): text { contract forall a. soo(a, cur) => vis(a, cur); answer v; } }
