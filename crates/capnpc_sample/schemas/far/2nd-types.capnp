@0xb7d0a1c2e3f40509;
# Types of a file in another folder, whose name is no name of a module.

enum Rank {
  low @0;
  high @1;
}

enum Mode {
  off @0;
  on @1;
}

struct Keeper(Element) {
  kept @0 :Element;
  enum Direction { up @0; }
}
