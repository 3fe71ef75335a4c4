@0xd2a8f5c1b3e04796;
# Names that would collide in the code, each with another one there.

using Rattle = import "/rattle.capnp";

struct Screen {
  windowWidth @0 :UInt16;
  window :group $Rattle.name("pane") {
    # Else `window.width` would be set by `set_window_width`, as `windowWidth` is.
    width @1 :UInt16;
    title @2 :Text;
  }

  union {
    off @3 :Void;
    onSince @4 :UInt32 $Rattle.name("litSince");
  }

  inner @5 :Inner;
  struct Inner $Rattle.name("Part") {
    state @0 :State = ready;
  }

  enum State $Rattle.name("PartState") {
    idle @0;
    ready @1 $Rattle.name("done");
    rEADY @2;
  }

  const limit :UInt16 = 9 $Rattle.name("mostPanes");
}
