# Messages of a million words that are read, and built, to be timed.
@0xd1b0c3f2a4e59687;

struct Accounts { accounts @0 :List(Account); }
struct Account { id @0 :UInt64; amount @1 :UInt64; name @2 :Text; }

struct Records { records @0 :List(Record); }
struct Record { id @0 :UInt64; samples @1 :List(UInt32); name @2 :Text; }

struct Names { names @0 :List(Text); }

struct Company { id @0 :UInt64; name @1 :Text; departments @2 :List(Department); }
struct Department { id @0 :UInt64; name @1 :Text; teams @2 :List(Team); }
struct Team { id @0 :UInt64; name @1 :Text; members @2 :List(Member); }
struct Member { id @0 :UInt64; pay @1 :UInt64; name @2 :Text; address @3 :Address; }
struct Address { number @0 :UInt64; street @1 :Text; }

# What the benchmarks `orphans` of crates/capnp_bench build. The roots of a table, a list, and of texts, a list too, have no struct
# around them.
struct LogRecord { id @0 :UInt64; stamp @1 :UInt64; number @2 :UInt32; name @3 :Text; samples @4 :List(UInt32); }
struct TableElement { stamp @0 :UInt64; third @1 :Bool; id @2 :UInt32; note @3 :Text; }
struct Node { value @0 :UInt64; left @1 :Node; right @2 :Node; }
