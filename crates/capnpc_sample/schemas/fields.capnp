@0xb7d0a1c2e3f40501;
# Fields: numbers of every width, with and without defaults, and pointers of every kind.

enum Direction {
  north @0;
  east @1;
  south @2;
  west @3;
}

struct Numbers {
  # Numbers of every width, in the order in which they were added.
  nothing @0 :Void;
  flag @1 :Bool;
  tiny @2 :Int8;
  small @3 :Int16;
  middle @4 :Int32;
  large @5 :Int64;
  tinyPlain @6 :UInt8;
  smallPlain @7 :UInt16;
  middlePlain @8 :UInt32;
  largePlain @9 :UInt64;
  ratio @10 :Float32;
  precise @11 :Float64;
  direction @12 :Direction;
  secondFlag @13 :Bool;
  thirdFlag @14 :Bool;
}

struct Pointers {
  # What pointers lead to.
  label @0 :Text;
  payload @1 :Data;
  numbers @2 :Numbers;
  anything @3 :AnyPointer;
  anyStruct @4 :AnyStruct;
  anyList @5 :AnyList;
  inside @6 :Pointers;
}

struct Empty {
  # No field at all.
}

struct OnlyPointers {
  first @0 :Text;
}

struct OnlyNumbers {
  first @0 :UInt64;
}
