@0xb7d0a1c2e3f40508;
# What few schemas have.

using Rattle = import "/rattle.capnp";
using Far = import "far/2nd-types.capnp";
using Fields = import "fields.capnp";
using Lists = import "lists.capnp";

annotation note(*) :Text;

enum Rank $note("noted") $Rattle.name("OwnRank") {
  # Says that a comment of C */ ends, and /* begins, and names $Result, ${} and @type@.
  #
  # With an empty line, and spaces at the end.  
  below @0;
  theLast @1 $note("noted") $Rattle.name("last");
  # Of an enumerant.
  self @2;
}

enum Nothing {}

interface Unused {}

interface Service $note("noted") {
  call @0 ();
  const port :UInt16 = 7;
  struct Options { timeout @0 :Int64 = -9223372036854775808; }
}

struct TheNames $note("noted") {
  # Names of the language.
  own @0 :Rank = self;
  below @1 :Far.Rank = high;
  type @2 :Mode;
  mode @3 :Far.Mode;
  direction @4 :Fields.Direction = west;
  other @5 :Far.Keeper(Text).Direction;
  match :union $note("noted") $Rattle.name("loop") {
    crate @6 :Result;
    self @7 :Void;
  }
  enum Mode { plain @0; }
  enum Result { theFirst @0; }
  enum Reads { all @0; }
  enum TheEnd { reached @0; }
  const r :Far.Rank = high;
  const s :Rank = theLast;
}

struct Widths {
  apart @16 :Void;
  union {
    # A union in a union in a union.
    large @0 :UInt64;
    payload @1 :Data = 0x"00 27 22 5c ff 24 56 65 63";
    outer :union {
      middle @2 :UInt32;
      inner :union {
        small @3 :UInt8;
        nothing @14 :Void;
        title @15 :Text;
        both :group {
          # Of every width.
          left @4 :Int32 = -7;
          rest :group {
            last @5 :UInt16;
            done @6 :Bool = true;
            count @7 :Int64;
            ratio @8 :Float64 = inf;
            label @9 :Text = "\"quoted\", $Result ${} @name@ \n \\ é";
            cube @10 :List(List(List(Int16))) = [[[1, -2], []], []];
            service @11 :Service;
            widths @12 :Widths;
            any @13 :AnyPointer;
          }
        }
      }
    }
  }
}

struct Bare {}

struct Targets {
  services @0 :List(Service);
  # No getter reads them.
  ranks @1 :List(List(Rank)) = [[self]];
  nothings @2 :List(Void) = [void, void];
  texts @3 :List(List(Text)) = [["a", ""], []];
  bytes @4 :List(Data) = ["\x00"];
  anyStruct @5 :AnyStruct;
  # Any struct.
  anyList @6 :AnyList;
  capability @7 :Capability;
  keeper @8 :Far.Keeper(Far.Keeper(Text));
  options @9 :Service.Options = (timeout = 3);
  # A pointer with a default.
  plain @10 :Far.Keeper(Text) = ();
  widths @11 :List(List(Widths)) = [[(large = 2)]];
}

const least :Int16 = -32768;
# A constant that is a number.
const middle :Int32 = -2147483648;
const most :UInt64 = 18446744073709551615;
const small :Int8 = -128;
const zero :Float64 = -0.0;
const tiny :Float32 = 1e-45;
const endless :Float64 = -inf;
const unknown :Float32 = nan;
const no :Bool = false;
const far :Far.Rank = high;
const empty :Text = "";
const cited :Text = "$Result ${} $ @name@";
const none :Data = "";
const citing :Data = "$Vec \"\\";
const targets :Targets = (ranks = [[below, self], []], bytes = ["ab", ""], widths = [[(payload = "x")], []]);
# A constant that is a struct.
const widths :List(Widths) = [(large = 3), (outer = (inner = (both = (rest = (label = "deep", widths = (payload = "x"))))))];
const cube :List(List(List(Bool))) = [[[true, false], []], []];
const service :List(Text) = [];
const cards :List(List(Lists.Card)) = [[(suit = spades, rank = 3)], []];
const nothing :Void = void;
const bools :List(Bool) = [true];
const bytes :List(Int8) = [-1];
const shorts :List(Int16) = [-1];
const ints :List(Int32) = [-1];
const longs :List(Int64) = [-1];
const plainBytes :List(UInt8) = [1];
const plainShorts :List(UInt16) = [1];
const plainLongs :List(UInt64) = [1];
const ratios :List(Float32) = [nan];
const preciseRatios :List(Float64) = [nan];
const ranks :List(Rank) = [self];
const nothings :List(Void) = [void];
