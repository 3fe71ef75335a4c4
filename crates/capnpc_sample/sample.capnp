@0xd9a4c1f2b3e05768;
# A small schema with a field of each kind.

struct Point {
  # A point of a plane.
  x @0 :Int32;
  y @1 :Int32;
}

struct Tree {
  # A binary tree of numbers.
  value @0 :Int64;
  left @1 :Tree;
  right @2 :Tree;
}

enum Color {
  # Colors of a lamp.
  red @0;
  green @1;
  deepBlue @2;
}

const limit :UInt32 = 1000;
const corner :Point = (x = 640, y = 480);

struct Sample {
  # A struct with a field of each kind.
  count @0 :UInt16;
  # How many there are.
  balance @1 :Int32 = -5;
  isReady @2 :Bool;
  title @3 :Text;
  payload @4 :Data;
  points @5 :List(Point);
  numbers @6 :List(UInt32);
  origin @7 :Point;
  color @8 :Color;
  window :group {
    # What is seen of it.
    width @9 :UInt16;
    height @10 :UInt16;
  }
  union {
    nothing @11 :Void;
    size @12 :UInt32;
    label @13 :Text;
  }
  ratio @14 :Float64 = 0.5;
  note @15 :Text = "none";
  target @16 :Point = (x = 3, y = 4);
  anything @17 :AnyPointer;
}

struct Shape {
  # A circle or a rectangle.
  union {
    radius @0 :Float64;
    rectangle :group {
      # Its sides, and what stands in it.
      width @1 :UInt32;
      height @2 :UInt32;
      isFilled @3 :Bool;
      label @4 :Text;
    }
  }
}

struct Palette {
  # Colors, and a name for each.
  colors @0 :List(Color);
  names @1 :List(Text) = ["none"];
}
