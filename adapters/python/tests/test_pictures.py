"""Pictures of graphs and of placed graphs, in files and in notebooks.

Those of placed graphs wait for the member `placed` of requests.
"""

import base64
import os
import re
import shutil
import sys
import tempfile
import unittest
import unittest.mock
import xml.etree.ElementTree as xml

from .program import PROGRAM, box, chain, edge, needs, with_program
from elk_layout import Placed, Refusal, calls, layout, svg, to_svg

LABELLED = {
    "id": "r",
    "children": [box("a", style={"shape": "ellipse", "fill": "#ffe066"}), box("b", labels=[{"text": "<&>"}])],
    "edges": [edge("a", "b", labels=[{"text": "on"}], directed=False)],
}


@with_program
class Pictures(unittest.TestCase):
    def test_a_graph_is_drawn_in_one_go(self):
        picture = svg(LABELLED, program=PROGRAM)
        kinds = [it.tag.rpartition("}")[2] for it in xml.fromstring(picture).iter()]
        self.assertEqual(kinds.count("ellipse"), 1)
        self.assertEqual(re.findall(r"<text[^>]*>([^<]*)</text>", picture), ["a", "&lt;&amp;&gt;", "on"])
        self.assertIn("prefers-color-scheme", picture)

    def test_looks_are_those_that_are_asked_for(self):
        light, dark = (svg(chain(2), theme=theme, program=PROGRAM) for theme in ("light", "dark"))
        self.assertNotEqual(light, dark)
        self.assertNotIn("prefers-color-scheme", light + dark)
        bare = svg(chain(2), theme="light", arrows=False, options={"elk.direction": "DOWN"}, program=PROGRAM)
        self.assertEqual(light.count("<path") - bare.count("<path"), 1)
        with self.assertRaisesRegex(Refusal, '"theme" is "light", "dark" or "auto"'):
            svg({}, theme="blue", program=PROGRAM)

    def test_a_placed_graph_has_the_same_picture(self):
        for look in ({}, {"theme": "dark", "arrows": False}):
            picture = svg(LABELLED, program=PROGRAM, **look)
            placed = layout(LABELLED, program=PROGRAM)
            self.assertEqual(to_svg(placed, program=PROGRAM, **look), picture)
            self.assertEqual(placed.to_svg(**look), picture)

    def test_a_graph_that_another_program_placed_is_drawn_as_it_is(self):
        node = {"id": "a", "x": 5, "y": 7.5, "width": 30, "height": 10}
        picture = to_svg({"id": "r", "width": 60, "height": 40, "children": [node]}, program=PROGRAM)
        self.assertIn('x="5" y="7.5" width="30" height="10"', picture)

    def test_a_notebook_shows_a_result_as_its_picture(self):
        placed = layout(LABELLED, program=PROGRAM)
        shown = placed._repr_mimebundle_()
        self.assertEqual(shown["image/svg+xml"], placed.to_svg())
        data = re.fullmatch('<img alt="[^"]+" style="[^"]+" src="data:image/svg[+]xml;base64,([^"]+)">', shown["text/html"])[1]
        self.assertEqual(base64.b64decode(data).decode(), placed.to_svg())


@with_program
class Saved(unittest.TestCase):
    def setUp(self):
        folder = tempfile.TemporaryDirectory()
        self.addCleanup(folder.cleanup)
        self.folder = folder.name
        node = {"id": "a", "x": 12, "y": 12, "width": 30, "height": 10}
        self.placed = Placed({"id": "r", "width": 60, "height": 40, "children": [node]}, PROGRAM)

    def saved(self, name, **how):
        path = os.path.join(self.folder, name)
        self.placed.save(path, **how)
        with open(path, "rb") as file:
            return file.read()

    def test_svg_is_written_as_it_is(self):
        self.assertEqual(self.saved("a.svg").decode(), self.placed.to_svg())
        look = {"theme": "dark", "arrows": False}
        self.assertEqual(self.saved("b.SVG", **look).decode(), self.placed.to_svg(**look))

    def assert_converts(self):
        png = self.saved("a.png", scale=2)
        self.assertEqual(png[:8], b"\x89PNG\r\n\x1a\n")
        # The drawing with a margin of 8 on each side, twice as large.
        self.assertEqual((int.from_bytes(png[16:20], "big"), int.from_bytes(png[20:24], "big")), (152, 112))
        self.assertEqual(self.saved("a.pdf")[:5], b"%PDF-")

    @unittest.skipUnless(shutil.which("rsvg-convert"), "rsvg-convert isn't there")
    def test_png_and_pdf_come_from_the_command(self):
        with unittest.mock.patch.dict(sys.modules, {"cairosvg": None}):
            self.assert_converts()

    @needs("cairosvg")
    def test_png_and_pdf_come_from_the_package_without_the_command(self):
        with unittest.mock.patch.dict(os.environ, {"PATH": "/nowhere"}):
            self.assert_converts()

    def test_what_is_missing_is_reported(self):
        nothing = unittest.mock.patch.object(calls.importlib.util, "find_spec", return_value=None)
        with nothing, unittest.mock.patch.object(calls.shutil, "which", return_value=None):
            with self.assertRaisesRegex(RuntimeError, "becomes PNG by the command rsvg-convert .* or by the Python package cairosvg"):
                self.saved("a.png")
        for name in ("a.gif", "a", "svg"):
            with self.subTest(name), self.assertRaisesRegex(ValueError, "may be .svg, .png, .pdf"):
                self.saved(name)
        self.assertEqual(os.listdir(self.folder), [])


if __name__ == "__main__":
    unittest.main()
