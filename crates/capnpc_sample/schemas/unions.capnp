@0xb7d0a1c2e3f40504;
# Groups and unions, named and not, in one another.

struct Shape {
  area @0 :Float64;
  union {
    circle @1 :Float64;
    square @2 :Float64;
    named :group {
      name @3 :Text;
      corners @4 :List(UInt32);
    }
    nothing @5 :Void;
  }
  border :union {
    none @6 :Void;
    width @7 :UInt16;
    image @8 :Data;
    inner :group {
      left @9 :Int16 = -1;
      kind :union {
        solid @10 :Void;
        dashed @11 :UInt8;
        like @12 :Shape;
      }
    }
  }
}

struct OnlyNumbers {
  union {
    small @0 :UInt8;
    large @1 :UInt64;
    flag @2 :Bool;
  }
}

struct OnlyNothing {
  union {
    yes @0 :Void;
    no @1 :Void;
  }
}

struct Kept {
  # A member that is an interface has no getter.
  interface Service {
    call @0 ();
    struct Options {
      timeout @0 :UInt32 = 30;
    }
  }
  union {
    service @0 :Service;
    options @1 :Service.Options;
    any @2 :AnyPointer;
  }
}

struct Nested {
  # Unions in unions, and groups in these.
  union {
    number @0 :UInt64;
    outer :union {
      middle @1 :UInt32;
      inner :union {
        small @2 :UInt8;
        label @3 :Text;
        both :group {
          left @4 :Int32 = -1;
          right @5 :Text;
          rest :group {
            last @6 :UInt16;
            more @7 :Data;
          }
        }
      }
    }
  }
}
