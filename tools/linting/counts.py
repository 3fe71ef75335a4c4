"""Whether a test shows what each public function of the types that reach the traversal limiter counts.

docs/API.md has the functions. The test `calls::counts::functions` of capnp_object_tests calls each of them by the path that
the page gives it, and has how many words are counted then.
"""
import re

PAGE = "docs/API.md"
TEST = "crates/capnp_object_tests/src/calls/counts/functions.rt"
# arenas, messages, and the views and iterators that give further objects; text, data and numbers are bytes alone
TYPES = """
    any_pointer::Reader any_pointer_list::Reader any_struct::StructReader arena::ReaderArena list_list::Reader
    list_list::ViewIntoIter list_list::ViewIter message::Reader message::TypedReader struct_list::Reader
    traits::ListIntoIter traits::ListIter upgraded::ListList upgraded::PointerList upgraded::StructList
    upgraded::Structs
""".split()
FUNCTION = re.compile(r"^- `((?:\w+::)+)(\w+)`, fn\b", re.M)
CALL = re.compile(r"\b((?:\w+::)+\w+)(?:::<[^()]*>)?\(")


def check(tree):
    called = set(CALL.findall(tree.text(TEST)))
    functions = FUNCTION.findall(tree.text(PAGE))
    for name in TYPES:
        of_type = [f"{name}::{function}" for owner, function in functions if owner == f"{name}::"]
        tree.seen(len(of_type))
        if not of_type:
            tree.wrong(PAGE, 0, f"`{name}` has no public function: tools/linting/counts.py names types that count")
        for path in of_type:
            if path not in called:
                tree.wrong(TEST, 0, f"`{path}` is not called, so nothing shows how many words it counts")
