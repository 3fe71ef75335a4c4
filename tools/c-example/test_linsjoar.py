"""Tests of crates/capnp_c/python/linsjoar.py, which PYTHONPATH has: what random messages don't have, and the programs of a page.

    test_linsjoar.py GUIDE ADDRESSBOOK    the page docs/GUIDE.md, and the schema of the address book; the C++ tool is called
"""
import os
import pathlib
import re
import shutil
import subprocess
import sys
import tempfile
import threading
import unittest

import linsjoar

OLD = """@0xe1a5f0c2b3d49687;
struct Box(T) { value @0 :T; boxes @1 :List(Box(T)); inner @2 :Inner; struct Inner { of @0 :T; } }
enum Color { red @0; green @1; }
struct Thing {
  color @0 :Color = green;
  union { none @1 :Void; size @2 :UInt16 = 7; }
  items @3 :List(Thing);
  name @4 :Text = "thing";
  any @5 :AnyPointer;
  texts @6 :Box(Text);
  open @7 :Box;
  which @8 :UInt8;
  from @9 :Int32 = -5;
  ratio @10 :Float32 = 0.5;
  place @11 :Place = (x = 3, tags = ["a"]);
  matrix @12 :List(List(UInt8));
  const limit :UInt32 = 500;
  const start :Place = (x = 9);
}
struct Odd { union { which @0 :Text; other @1 :Void; } }
struct Pick { union { a @0 :Void; b @1 :UInt8; } }
struct Place { x @0 :Int8; tags @1 :List(Text); }
"""
USER = """@0xe1a5f0c2b3d49688;
using Things = import "thing.capnp";
struct User { place @0 :Things.Place; color @1 :Things.Color = green; box @2 :Things.Box(Things.Place); }
"""
NEW = OLD.replace("green @1;", "green @1; blue @2;").replace(
    "size @2 :UInt16 = 7;", "size @2 :UInt16 = 7; weight @13 :Float64; label @14 :Text;").replace(
    "b @1 :UInt8;", "b @1 :UInt8; c @2 :Text;").replace("other @1 :Void;", "other @1 :Void; third @2 :Void;").replace("tags @1", "z @2 :UInt64; note @3 :Text; tags @1")


class Tests(unittest.TestCase):
    @classmethod
    def setUpClass(cls):
        with tempfile.TemporaryDirectory() as folder:
            for name, text in (("thing", OLD), ("new", NEW), ("user", USER)):
                path = pathlib.Path(folder, name + ".capnp")
                path.write_text(text)
                setattr(cls, name, linsjoar.load(str(path)))

    def test_programs_of_the_page(self):
        page, schema = sys.argv[1:3]
        section = re.search(r"^## Python\n(.*?)^## ", pathlib.Path(page).read_text(), re.M | re.S)[1]
        programs = re.findall(r"```python\n(.*?)```.*?```text\n(.*?)```", section, re.S)
        self.assertEqual(len(programs), 3)
        for program, printed in programs:
            with self.subTest(program=program), tempfile.TemporaryDirectory() as folder:
                shutil.copy(schema, os.path.join(folder, "addressbook.capnp"))
                given = "Alice alice@example.com\nBob bob@example.com\n"
                done = subprocess.run([sys.executable, "-c", program], cwd=folder, input=given, capture_output=True, text=True, timeout=60)
                self.assertEqual((done.stdout, done.stderr), (printed, ""))

    def read_old(self, **values):
        return self.thing.Thing.read(self.new.Thing.new(**values).to_bytes())

    def test_unknown_numbers(self):
        thing = self.read_old(color="blue", weight=0.5)
        self.assertEqual((thing.color, thing.which, thing.to_dict()["which"]), (2, 2, 0))
        self.assertTrue(str(thing).startswith("(color = (2), "))
        built = self.thing.Thing.new(color=2)
        built.which = 2
        self.assertEqual((built.which, self.new.Thing.read(built.to_bytes()).which), (2, "weight"))
        pick = self.thing.Pick.read(self.new.Pick.new(c="x").to_bytes())
        self.assertEqual((pick.which, pick.to_dict(), str(pick)), (2, {"which": 2}, "()"))
        odd = self.thing.Odd.read(self.new.Odd.new(third=None).to_bytes())
        self.assertEqual((odd.which, odd.to_dict(), self.thing.Odd.new(which="a").which_), (2, {}, "a"))
        self.assertEqual(self.new.Pick.read(self.thing.Pick.new(**pick.to_dict()).to_bytes()).to_dict(), {"c": None})
        place = self.thing.Box.new(value=self.thing.Thing.new(color=77))
        self.assertEqual(self.thing.Box.read(place.to_bytes()).value.as_struct(self.thing.Thing).color, 77)

    def test_newer_fields(self):
        thing = self.read_old(place={"x": 1, "z": 2**64 - 1, "note": "new"}, items=[{"label": "x"}, {"size": 2}])
        self.assertEqual(thing.place.to_dict(), {"x": 1})
        again = self.new.Thing.read(self.thing.Thing.new(place=thing.place, items=thing.items).to_bytes())
        self.assertEqual(again.place.to_dict(), {"x": 1, "z": 2**64 - 1, "note": "new"})
        self.assertEqual([item.which for item in again.items], ["label", "size"])
        newer = self.new.Thing.read(self.thing.Thing.new(place={"x": 1}).to_bytes())
        self.assertEqual(newer.place.to_dict(), {"x": 1, "z": 0})

    def test_text_that_is_not_utf_8(self):
        data = self.thing.Thing.new(items=[{}, {"name": "grün"}]).to_bytes().replace("ü".encode(), b"\xff\xff")
        thing = self.thing.Thing.read(data)
        for call in (lambda: thing.items[1].name, thing.to_dict, lambda: str(thing)):
            with self.assertRaisesRegex(UnicodeDecodeError, r"items\[1\]\.name"):
                call()
        self.assertEqual(thing.items[0].name, "thing")

    def test_errors_and_their_paths(self):
        data = self.thing.Thing.new(items=[{}, {"name": "abcdefg"}]).to_bytes().replace(b"abcdefg\0", b"abcdefgh")
        with self.assertRaises(linsjoar.Error) as caught:
            self.thing.Thing.read(data).to_dict()
        self.assertEqual(str(caught.exception), "items[1].name: TextNotTerminated")
        self.assertEqual((caught.exception.number, caught.exception.name), (23, "TextNotTerminated"))
        for values, error, path in [({"x": 1}, KeyError, "x"), ({"items": [{"x": 1}]}, KeyError, r"items\[0\]\.x"), ({"name": 5}, TypeError, "name"),
                                    ({"color": "pink"}, ValueError, "color"), ({"items": [{"size": 2**16}]}, ValueError, r"items\[0\]\.size"),
                                    ({"size": 1, "none": None}, ValueError, "union"), ({"items": "ab"}, TypeError, "items"),
                                    ({"ratio": 1e300}, ValueError, "ratio"), ({"matrix": [[1], [256]]}, ValueError, r"matrix\[1\]\[0\]")]:
            with self.subTest(values), self.assertRaisesRegex(error, path):
                self.thing.Thing.new(**values)
        thing = self.read_old(items=[{}], size=3)
        for error, call in [(IndexError, lambda: thing.items[1]), (AttributeError, lambda: thing.none), (AttributeError, lambda: thing.nothing),
                            (AttributeError, lambda: setattr(thing, "size", 3)), (AttributeError, lambda: setattr(self.thing.Thing.new(), "nothing", 3))]:
            with self.subTest(error), self.assertRaises(error):
                call()

    def test_defaults_names_and_constants(self):
        thing = self.thing.Thing.read(self.thing.Thing.new().to_bytes())
        self.assertEqual((thing.color, thing.name, thing.from_, thing.which_, thing.ratio, thing.place.x), ("green", "thing", -5, 0, 0.5, 3))
        self.assertEqual((thing.place.tags, thing.which, list(thing.items), bool(thing.any)), (["a"], "none", [], False))
        self.assertEqual((self.thing.Thing.limit, self.thing.Thing.start.x, self.thing.Color.names), (500, 9, ("red", "green")))
        self.assertLessEqual({"color", "from_", "which_", "which", "size"}, {*dir(thing)} & {*dir(self.thing.Thing.new())})
        thing = self.thing.Thing.read(self.thing.Thing.new(**{"from": 1, "which": 2, "color": "red", "ratio": 0.0, "place": {}}).to_bytes())
        self.assertEqual((thing.from_, thing.which_, thing.color, thing.ratio, thing.place.x), (1, 2, "red", 0.0, 0))

    def test_assigned(self):
        thing = self.thing.Thing.new()
        thing.place.x = 4
        thing.items.append({"size": 4})
        thing.size = 1
        thing.matrix = [[1, 2], b"\3"]
        read = self.thing.Thing.read(thing.to_bytes())
        self.assertEqual((read.place.to_dict(), read.items[0].size, read.size), ({"x": 4, "tags": ["a"]}, 4, 1))
        self.assertEqual((read.matrix, read.matrix[1:], read.matrix[-1][0]), ([[1, 2], [3]], [[3]], 3))
        with self.assertRaises(ValueError):
            thing.size = -1
        with self.assertRaises(KeyError):
            thing.which = "items"
        thing.which = "none"
        self.assertEqual((thing.which, self.thing.Thing.read(thing.to_bytes()).which), ("none", "none"))

    def test_generics(self):
        thing = self.read_old(texts={"value": "a", "boxes": [{"value": "b"}], "inner": {"of": "c"}}, open={"value": b"data", "inner": {"of": "d"}}, any="e")
        self.assertEqual((thing.texts.value, thing.texts.boxes[0].value, thing.texts.inner.of), ("a", "b", "c"))
        self.assertEqual((thing.open.value.as_data(), thing.open.inner.of.as_text(), thing.any.as_text()), (b"data", "d", "e"))
        again = self.thing.Thing.read(self.thing.Thing.new(any=thing.matrix, **{"open": {"value": thing.any}}).to_bytes())
        self.assertEqual((again.open.value.as_text(), again.any.as_list("Text")), ("e", []))

    def test_imports(self):
        user = self.user.User.read(self.user.User.new(place={"x": 1}, box={"value": {"tags": ["a"]}}).to_bytes())
        self.assertEqual((user.place.x, user.color, user.box.value.tags, hasattr(self.user, "Place")), (1, "green", ["a"], False))

    def test_limits(self):
        data = self.thing.Thing.new(name="x" * 800).to_bytes()
        thing = self.thing.Thing.read(data, traversal_limit_in_words=250)
        self.assertEqual(len(thing.name) + len(thing.name), 1600)
        with self.assertRaisesRegex(linsjoar.Error, "name: ReadLimitExceeded"):
            thing.name
        thing.renew()
        self.assertEqual(len(thing.name), 800)
        with self.assertRaisesRegex(linsjoar.Error, "MessageTooLarge"):
            self.thing.Thing.read(data, traversal_limit_in_words=20)
        with self.assertRaisesRegex(linsjoar.Error, "NestingLimitExceeded"):
            self.thing.Thing.read(data, nesting_limit=1).name

    def test_streams(self):
        things = [self.thing.Thing.new(name="x" * size) for size in (0, 1, 100000, 7)]
        for write, read in (("to_bytes", self.thing.Thing.read_all), ("to_packed", self.thing.Thing.read_all_packed)):
            data = b"".join(getattr(thing, write)() for thing in things)
            source, sink = os.pipe()
            with open(source, "rb") as file, open(sink, "wb") as end:
                threading.Thread(target=lambda: (end.write(data[:-1]), end.close())).start()
                roots = read(file)
                self.assertEqual([len(next(roots).name) for _ in range(3)], [0, 1, 100000])
                with self.assertRaises(linsjoar.Error):
                    next(roots)


if __name__ == "__main__":
    unittest.main(argv=sys.argv[:1])
