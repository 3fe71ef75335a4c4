@0xc4e1b7d2a3f50689;
# What the program of tools/try-consumer builds beside an address book.

struct Branch {
  value @0 :Int64;
  left @1 :Branch;
  right @2 :Branch;
}
