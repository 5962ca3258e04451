"""The programs of docs/PYTHON.md print what stands behind them."""

import contextlib
import io
import pathlib
import re
import unittest

PAGE = pathlib.Path(__file__).resolve().parent.parent / "docs/PYTHON.md"


class Page(unittest.TestCase):
    def test_programs(self):
        names: dict = {}
        printed = ""
        shown = 0
        for language, text in re.findall(r"^```(\w+)\n(.*?)^```$", PAGE.read_text(), re.DOTALL | re.MULTILINE):
            if language == "text":
                self.assertEqual(printed, text)
                printed = ""
                shown += 1
                continue
            self.assertEqual(printed, "", "a program's text is not on the page")
            output = io.StringIO()
            with contextlib.redirect_stdout(output):
                exec(compile(text, str(PAGE), "exec"), names)
            printed = output.getvalue()
        self.assertEqual((shown, printed), (4, ""))


if __name__ == "__main__":
    unittest.main()
