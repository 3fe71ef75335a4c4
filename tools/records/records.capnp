@0xc3a1b7d2e9f04681;
struct Record {
  id @0 :UInt64;
  amount @1 :Int32;
  ratio @2 :Float64;
  isOpen @3 :Bool;
  name @4 :Text;
  note @5 :Text;
}
struct Records {
  all @0 :List(Record);
  texts @1 :List(Text);
}
