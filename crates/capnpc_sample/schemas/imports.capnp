@0xb7d0a1c2e3f40506;
# Types of other files, and names that are words of the language.

using Fields = import "fields.capnp";
using Lists = import "lists.capnp";
using Unions = import "unions.capnp";

struct Report {
  numbers @0 :Fields.Numbers;
  direction @1 :Fields.Direction = east;
  directions @2 :List(Fields.Direction);
  lists @3 :Lists.Lists;
  hands @4 :List(List(Lists.Card));
  options @5 :Unions.Kept.Service.Options;
  details :group {
    suit @6 :Lists.Suit;
    direction @7 :Fields.Direction;
    where @8 :Direction;
  }
  enum Direction {
    # Another enum of this name.
    up @0;
    down @1;
  }
}

struct Struct {
  type @0 :Type;
  self @1 :Self;
  fn :group {
    loop @2 :Void;
    ensures @3 :Text;
  }
  match :union {
    crate @4 :UInt8;
    result @5 :UInt16;
  }
  enum Self {
    self @0;
    notInSchema @1;
    below @2;
  }
  struct Type {
    requires @0 :Bool;
    which @1 :UInt8;
  }
  struct Reader {
    owned @0 :Reader;
  }
  data @6 :Data;
  record @7 :Reader;
}
