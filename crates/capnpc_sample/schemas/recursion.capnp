@0xb7d0a1c2e3f40507;
# Structs that hold themselves and one another, and unions of many members.

struct Tree {
  value @0 :Int64;
  left @1 :Tree;
  right @2 :Tree;
}

struct Forest {
  trees @0 :List(Tree);
  groves @1 :List(List(Grove));
}

struct Grove {
  name @0 :Text;
  around @1 :Forest;
  next @2 :Grove;
}

struct Expression {
  # A term of a small language.
  union {
    number @0 :Float64;
    name @1 :Text;
    negated @2 :Expression;
    sum :group {
      left @3 :Expression;
      right @4 :Expression;
    }
    call :group {
      function @5 :Text;
      arguments @6 :List(Expression);
    }
    choice :group {
      condition @7 :Expression;
      union {
        none @8 :Void;
        otherwise @9 :Expression;
        last :union {
          first @10 :UInt8;
          second @11 :Tree;
        }
      }
    }
  }
}

enum Level {
  low @0;
  high @1;
}

struct Value {
  # A member of each kind.
  union {
    nothing @0 :Void;
    flag @1 :Bool;
    tiny @2 :Int8;
    small @3 :Int16;
    middle @4 :Int32;
    large @5 :Int64;
    plain @6 :UInt64;
    ratio @7 :Float32 = 1.5;
    precise @8 :Float64;
    level @9 :Level = high;
    label @10 :Text;
    payload @11 :Data;
    numbers @12 :List(UInt16);
    levels @13 :List(Level);
    labels @14 :List(Text);
    inner @15 :Value;
    values @16 :List(Value);
    grid @17 :List(List(Value));
    anything @18 :AnyPointer;
    tree @19 :Tree;
  }
}
