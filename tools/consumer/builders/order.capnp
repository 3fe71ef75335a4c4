@0xa7c3e19f5b2d4860;
# An order with a list of each kind, over which the program of tools/try-consumer builders loops.

enum State {
  open @0;
  packed @1;
  sent @2;
}

struct Order {
  lines @0 :List(Line);
}

struct Line {
  tags @0 :List(Text);
  scans @1 :List(Data);
  rows @2 :List(List(UInt32));
  parts @3 :List(Part);
  states @4 :List(State);
  weights @5 :List(UInt32);
}

struct Part {
  number @0 :UInt32;
}
