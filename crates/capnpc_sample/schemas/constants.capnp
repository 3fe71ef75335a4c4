@0xb7d0a1c2e3f40505;
# Constants of every type.

enum Weekday {
  monday @0;
  sunday @1;
}

struct Date {
  year @0 :Int16;
  month @1 :UInt8;
  day @2 :UInt8;
  note @3 :Text;

  const lastMonth :UInt8 = 12;
  const epoch :Date = (year = 1970, month = 1, day = 1, note = "epoch");
}

const flag :Bool = true;
const tiny :Int8 = -7;
const small :Int16 = -700;
const middle :Int32 = -70000;
const large :Int64 = -7000000000;
const tinyPlain :UInt8 = 200;
const smallPlain :UInt16 = 60000;
const middlePlain :UInt32 = 4000000000;
const largePlain :UInt64 = 0xcafe0000beef0000;
const ratio :Float32 = 0.125;
const precise :Float64 = 1e300;
const unknown :Float64 = nan;
const endless :Float32 = -inf;
const rest :Weekday = sunday;
const greeting :Text = "Hello, \"world\"\n";
const longText :Text = "A text that is too long for one line of code, so that it stands on a line of its own";
const seed :Data = 0x"00 ff 41 22";
const today :Date = (year = 2025, month = 6, day = 30);
const primes :List(UInt32) = [2, 3, 5, 7, 11];
const dates :List(Date) = [.today, (year = 1)];
const words :List(Text) = ["one", "two"];
const nothing :Void = void;
