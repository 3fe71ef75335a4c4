@0xb7d0a1c2e3f40503;
# Defaults: the bits in which a field differs from its default are what a message holds.

enum Mode {
  plain @0;
  fancy @1;
}

struct Point {
  x @0 :Int32 = -1;
  y @1 :Int32 = 7;
}

struct Numbers {
  flag @0 :Bool = true;
  tiny @1 :Int8 = -128;
  small @2 :Int16 = -12345;
  middle @3 :Int32 = 2147483647;
  large @4 :Int64 = -9223372036854775808;
  tinyPlain @5 :UInt8 = 255;
  smallPlain @6 :UInt16 = 65535;
  middlePlain @7 :UInt32 = 4294967295;
  largePlain @8 :UInt64 = 18446744073709551615;
  ratio @9 :Float32 = 1.5;
  precise @10 :Float64 = -2.25;
  unknown @11 :Float64 = nan;
  endless @12 :Float32 = -inf;
  mode @13 :Mode = fancy;
}

struct Named {
  label @0 :Text;
  point @1 :Point;
}

struct Pointers {
  label @0 :Text = "none";
  payload @1 :Data = 0x"a1 40 33";
  numbers @2 :List(UInt16) = [1, 2, 3];
  point @3 :Point = (x = 3, y = 4);
  points @4 :List(Point) = [(x = 1), (y = 2)];
  labels @5 :List(Text) = ["one", "two"];
  flags @6 :List(Bool) = [true, false, true];
  grid @7 :List(List(Int8)) = [[1, -1], []];
  plain @8 :Text;
  named @11 :Named = (label = "none", point = (x = 5));
  union {
    title @9 :Text = "untitled";
    place @10 :Point = (x = 9);
  }
}
