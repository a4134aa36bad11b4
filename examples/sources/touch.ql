# The smallest source: one type with one operation.
type t { op touch(): unit { contract true; answer unit; } }
