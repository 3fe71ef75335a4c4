@0xb7d0a1c2e3f40502;
# Lists of every element, and lists of lists.

enum Suit {
  clubs @0;
  spades @1;
}

struct Card {
  suit @0 :Suit;
  rank @1 :UInt8;
}

struct Lists {
  nothings @0 :List(Void);
  flags @1 :List(Bool);
  tiny @2 :List(Int8);
  small @3 :List(Int16);
  middle @4 :List(Int32);
  large @5 :List(Int64);
  tinyPlain @6 :List(UInt8);
  smallPlain @7 :List(UInt16);
  middlePlain @8 :List(UInt32);
  largePlain @9 :List(UInt64);
  ratios @10 :List(Float32);
  precise @11 :List(Float64);
  suits @12 :List(Suit);
  labels @13 :List(Text);
  payloads @14 :List(Data);
  cards @15 :List(Card);
  hands @16 :List(List(Card));
  grid @17 :List(List(UInt16));
  cube @18 :List(List(List(Bool)));
  poems @19 :List(List(Text));
}

struct Holder(Element) {
  # What a type parameter stands for is read as any pointer.
  held @0 :Element;
}

struct Deck {
  top @0 :Holder(Card);
  labels @1 :Holder(Text);
}
