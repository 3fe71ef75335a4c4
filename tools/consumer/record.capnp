@0xd7f3a5f1c2b4e690;

# What a log is a stream of.
struct Record {
  id @0 :UInt64;
  second @1 :UInt32;
  host @2 :Text;
  change @3 :Int32;
  load @4 :Float64;
}
