"""Tests that the pictures of the documents are the charts of the reports in scripts/."""
from __future__ import annotations

import os
import re
import subprocess
import sys
import unittest
from typing import Dict, List

from samples import SCRIPTS, TOOLS, TOP, bytes_of

DOCS = os.path.join(TOP, "docs")
PICTURES = os.path.join(DOCS, "pictures")
SHOWN = ["exchange", "guarded_receive", "stuck", "three_way_swap"]


def documents() -> List[str]:
    """The README and the documents of docs/."""
    names = [name for name in sorted(os.listdir(DOCS)) if name.endswith(".md")]
    return [os.path.join(TOP, "README.md"), *(os.path.join(DOCS, name) for name in names)]


def pictures_in(document: str) -> Dict[str, str]:
    """The pictures that a document shows, each with the words that stand for it."""
    links = re.findall(r"!\[([^]]*)\]\(([^)]*)\)", bytes_of(document).decode())
    return {os.path.normpath(os.path.join(os.path.dirname(document), link)): words for words, link in links}


class Pictures(unittest.TestCase):
    def test_each_picture_is_the_chart_of_its_report(self):
        for name in sorted(os.listdir(PICTURES)):
            report = name.replace(".svg", ".report")
            command = [sys.executable, "-B", os.path.join(TOOLS, "chart")]
            data = bytes_of(os.path.join(SCRIPTS, report))
            drawn = subprocess.run(command, input=data, capture_output=True, check=True)
            again = f"stale: renew it by tools/chart < scripts/{report} > docs/pictures/{name}"
            self.assertTrue(drawn.stdout == bytes_of(os.path.join(PICTURES, name)), again)

    def test_the_readme_and_the_guide_show_them_all(self):
        paths = [os.path.join(PICTURES, f"{name}.svg") for name in SHOWN]
        self.assertEqual(sorted(os.listdir(PICTURES)), [f"{name}.svg" for name in SHOWN])
        for document in (os.path.join(TOP, "README.md"), os.path.join(DOCS, "GUIDE.md")):
            self.assertEqual(sorted(pictures_in(document)), paths)

    def test_each_link_to_a_picture_leads_somewhere_and_has_words(self):
        for document in documents():
            for path, words in pictures_in(document).items():
                self.assertTrue(os.path.isfile(path), (document, path))
                self.assertGreater(len(words), 20, (document, path))


if __name__ == "__main__":
    unittest.main()
