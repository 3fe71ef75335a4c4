@0xa93fc509624c72d9;
# What `capnpc-rattle` reads of a request: Cap'n Proto's own `schema.capnp` without the rest.
#
# Each field has the place in its struct that it has there. A struct that a newer or a larger schema wrote is read all the same: what
# lies past the last field of a section here is left alone, and a member of a union that has no name here is `NotInSchema`. So the
# brands of types, methods, and whatever annotations, interfaces and parameters declare are left out; what has to stay for the place of
# what follows says so.

struct Node {
  id @0 :UInt64;
  displayName @1 :Text;
  displayNamePrefixLength @2 :UInt32;
  # How many bytes of `displayName` are in front of the name that the node has in its scope.
  scopeId @3 :UInt64;
  # The node in which it is declared; 0 for a file.
  nestedNodes @4 :List(NestedNode);
  annotations @5 :List(Annotation);
  union {
    file @6 :Void;
    struct :group {
      dataWordCount @7 :UInt16;
      pointerCount @8 :UInt16;
      preferredListEncoding @9 :UInt16;
      # For the place of what follows.
      isGroup @10 :Bool;
      discriminantCount @11 :UInt16;
      # How many members its union has, or 0.
      discriminantOffset @12 :UInt32;
      # In units of 16 bits.
      fields @13 :List(Field);
    }
    enum :group {
      enumerants @14 :List(Enumerant);
    }
    interface @15 :Void;
    const :group {
      type @16 :Type;
      value @17 :Value;
    }
  }

  struct NestedNode {
    name @0 :Text;
    id @1 :UInt64;
  }

  struct SourceInfo {
    id @0 :UInt64;
    docComment @1 :Text;
    members @2 :List(Member);
    # Of the fields or enumerants, in their order.

    struct Member {
      docComment @0 :Text;
    }
  }
}

struct Field {
  name @0 :Text;
  codeOrder @1 :UInt16;
  # For the place of what follows.
  annotations @2 :List(Annotation);
  const noDiscriminant :UInt16 = 0xffff;
  discriminantValue @3 :UInt16 = Field.noDiscriminant;
  # Its number in the union, if it is a member.
  union {
    slot :group {
      offset @4 :UInt32;
      # In units of the field's width, or among the pointers.
      type @5 :Type;
      defaultValue @6 :Value;
    }
    group @7 :UInt64;
    # The group's node.
  }
}

struct Enumerant {
  name @0 :Text;
  annotations @1 :List(Annotation);
}

struct Type {
  union {
    void @0 :Void;
    bool @1 :Void;
    int8 @2 :Void;
    int16 @3 :Void;
    int32 @4 :Void;
    int64 @5 :Void;
    uint8 @6 :Void;
    uint16 @7 :Void;
    uint32 @8 :Void;
    uint64 @9 :Void;
    float32 @10 :Void;
    float64 @11 :Void;
    text @12 :Void;
    data @13 :Void;
    list @14 :Type;
    enum @15 :UInt64;
    # The enum's node.
    struct @16 :UInt64;
    # The struct's node.
    interface @17 :Void;
    anyPointer :union {
      unconstrained :union {
        anyKind @18 :Void;
        struct @20 :Void;
        list @21 :Void;
        capability @22 :Void;
      }
      parameter @19 :Void;
    }
  }
}

struct Value {
  union {
    void @0 :Void;
    bool @1 :Bool;
    int8 @2 :Int8;
    int16 @3 :Int16;
    int32 @4 :Int32;
    int64 @5 :Int64;
    uint8 @6 :UInt8;
    uint16 @7 :UInt16;
    uint32 @8 :UInt32;
    uint64 @9 :UInt64;
    float32 @10 :Float32;
    float64 @11 :Float64;
    text @12 :Text;
    data @13 :Data;
    list @14 :AnyPointer;
    enum @15 :UInt16;
    struct @16 :AnyPointer;
    interface @17 :Void;
    anyPointer @18 :AnyPointer;
  }
}

struct Annotation {
  id @0 :UInt64;
  # The annotation's node.
  value @1 :Value;
}

struct CodeGeneratorRequest {
  nodes @0 :List(Node);
  requestedFiles @1 :List(RequestedFile);
  capnpVersion @2 :AnyPointer;
  # For the place of what follows.
  sourceInfo @3 :List(Node.SourceInfo);

  struct RequestedFile {
    id @0 :UInt64;
    filename @1 :Text;
  }
}
