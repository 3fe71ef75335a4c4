@0xc6f1b2a7d4e59803;
# What the tests print.

struct Printed {
  balance @0 :Int16 = -5;
  ratio @1 :Float64;
  color @2 :Color;
  title @3 :Text;
  payload @4 :Data;
  points @5 :List(Point);
  colors @6 :List(Color);
  any @7 :AnyPointer;
  size :group {
    width @8 :UInt8;
  }
  union {
    nothing @9 :Void;
    label @10 :Text = "none";
    inner @11 :Printed;
  }

  enum Color {
    red @0;
    deepBlue @1;
  }

  struct Point {
    x @0 :Int32;
    y @1 :Int32 = 3;
  }
}
