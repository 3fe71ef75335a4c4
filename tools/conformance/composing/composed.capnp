# A struct with a field of every kind of value that is composed, and two lists that are set from those of another version.
@0xa1f0c3d2b4e56879;

struct Part {
  number @0 :UInt32 = 9;
  wide @1 :Int64;
  name @2 :Text;
  counts @3 :List(UInt16);
}

struct Row {
  first @0 :Int16;
}

struct Kinds {
  number @0 :UInt64;
  small @1 :Int8;
  truth @2 :Bool;
  real @3 :Float64;
  text @4 :Text;
  data @5 :Data;
  part @6 :Part;
  voids @7 :List(Void);
  truths @8 :List(Bool);
  bytes @9 :List(UInt8);
  shorts @10 :List(Int16);
  integers @11 :List(UInt32);
  longs @12 :List(Int64);
  floats @13 :List(Float32);
  doubles @14 :List(Float64);
  parts @15 :List(Part);
  texts @16 :List(Text);
  datas @17 :List(Data);
  lists @18 :List(List(Int32));
  partLists @19 :List(List(Part));
  nothing @20 :Text;
  rows @21 :List(Row);
  rowShorts @22 :List(Int16);
}
