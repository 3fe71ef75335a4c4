@0x92e1bdcdb9ef0596;
# What a schema says to the compiler `capnpc-rattle`. It is used as in
#
#   using Rattle = import "/rattle.capnp";
#
#   struct Screen {
#     windowWidth @0 :UInt16;
#     window :group $Rattle.name("pane") {
#       width @1 :UInt16;
#     }
#   }

annotation name @0xc06646e30119d4ab (struct, enum, enumerant, union, group, field, const, interface) :Text;
# The name in the code, instead of that in the schema: of letters and digits, a letter in front. The code's names are
# made of it as they are of the schema's, and what is printed keeps the schema's names.

annotation prefix @0xe5a7b4d3c2f19086 (file) :Text;
# What is put before all names that the file's header for C makes, with `_` after it.
