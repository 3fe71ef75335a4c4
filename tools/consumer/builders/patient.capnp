@0xb1d0c7aa3e5f9021;
# A struct of 46 fields, 24 of them pointers, and a union whose members differ from visit to visit.

struct Patient {
  recordId @0 :UInt64;
  givenName @1 :Text;
  version @2 :UInt32;
  familyName @3 :Text;
  bornYear @4 :Int16;
  street @5 :Text;
  bornMonth @6 :UInt8;
  city @7 :Text;
  bornDay @8 :UInt8;
  country @9 :Text;
  isActive @10 :Bool;
  phone @11 :Text;
  isDonor @12 :Bool = true;
  email @13 :Text;
  height @14 :Float32;
  remarks @15 :Text;
  weight @16 :Float64;
  photo @17 :Data;
  bloodGroup @18 :BloodGroup;
  signature @19 :Data;
  visits @20 :UInt32;
  tags @21 :List(Text);
  balance @22 :Int64;
  scores @23 :List(Float64);
  threshold @24 :Int32 = -40;
  dates @25 :List(UInt64);
  ratio @26 :Float64 = 1.5;
  flags @27 :List(Bool);
  ward @28 :UInt16;
  groups @29 :List(BloodGroup);
  bed @30 :UInt16;
  doctor @31 :Contact;
  priority @32 :UInt8 = 3;
  guardian @33 :Contact;
  score @34 :Int8;
  contacts @35 :List(Contact);
  createdAt @36 :UInt64;
  attachments @37 :List(Data);
  changedAt @38 :UInt64;
  grid @39 :List(List(UInt16));
  isInsured @40 :Bool;
  extension @41 :AnyPointer;
  rank @42 :BloodGroup = minus;
  history @43 :List(Visit);
  language @44 :Text = "en";
  key @45 :Data;
}

enum BloodGroup { plus @0; minus @1; zero @2; }

struct Contact {
  name @0 :Text;
  phone @1 :Text;
}

struct Visit {
  at @0 :UInt64;
  outcome :union {
    pending @1 :Void;
    healed @2 :Bool;
    referredTo @3 :Contact;
    notes @4 :Text;
    measured :group {
      low @5 :Float32;
      high @6 :Float32;
      unit @7 :Text;
    }
  }
}
