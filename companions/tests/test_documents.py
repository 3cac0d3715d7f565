"""The documents hold: pictures show what is drawn now, code runs, and what other programs read is well formed."""

import contextlib
import html
import io
import json
import re
import subprocess
import unittest

import support


class DocumentsTest(unittest.TestCase):
    def test_pictures_show_what_is_drawn_now(self) -> None:
        pictures = sorted((support.TOP / "docs").glob("*.svg"))
        self.assertGreaterEqual(len(pictures), 3)
        for picture in pictures:
            shown = html.unescape(picture.read_text())
            drawn = support.solved(support.example(picture.stem)).dot()
            words = [line for label in re.findall(r'label="(.*)"', drawn) for line in label.split("\\n")]
            told = re.findall(r"<text[^>]*>(.*)</text>", shown)
            self.assertEqual(sorted(told), sorted(words), picture.name)

    def test_the_code_of_the_companions_document_runs(self) -> None:
        document = (support.TOP / "docs" / "COMPANIONS.md").read_text()
        code = next(block for block in re.findall(r"(?:^(?:    .*)?\n)+", document, re.M) if "from qyas_companions" in block)
        said = io.StringIO()
        with contextlib.redirect_stdout(said):
            exec(re.sub(r"^    ", "", code, flags=re.M), {})
        self.assertIn("budget: 4 depot + 2 shock - 3 loan <= 2", said.getvalue())
        self.assertIn("Worst play: ", said.getvalue())

    @unittest.skipUnless(support.has("man") and support.has("groff"), "man isn't installed")
    def test_the_manual_page_has_no_warnings(self) -> None:
        words = ["man", "--warnings", "-E", "UTF-8", "-l", str(support.TOP / "docs" / "qyas.1")]
        done = subprocess.run(words, stdout=subprocess.PIPE, stderr=subprocess.PIPE, check=False)
        self.assertEqual((done.returncode, done.stderr), (0, b""))

    def test_the_grammars_of_editors_are_json_with_regular_expressions(self) -> None:
        folder = support.TOP / "editors" / "vscode"
        for path in (*folder.glob("*.json"), *(folder / "syntaxes").glob("*.json")):
            for pattern in json.loads(path.read_text()).get("patterns", []):
                re.compile(pattern["match"])


if __name__ == "__main__":
    unittest.main()
