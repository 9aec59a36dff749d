#!/usr/bin/env python3
"""picture.py PAGE OUT: takes a picture of a page as Chromium shows it, or of its first sheet as Chromium prints it."""

import argparse
import contextlib
import pathlib
import subprocess
import sys
import tempfile

sys.dont_write_bytecode = True

from browser import Browser

DOTS_PER_INCH = 110


def main():
    parser = argparse.ArgumentParser(description=__doc__)
    parser.add_argument("page", type=pathlib.Path)
    parser.add_argument("out", type=pathlib.Path)
    parser.add_argument("--byte", metavar="N", help="with byte N pinned")
    parser.add_argument("--size", metavar=("WIDTH", "HEIGHT"), nargs=2, type=int, default=(1400, 860))
    parser.add_argument("--dark", action="store_true")
    parser.add_argument("--print", action="store_true", help="the first sheet of its print; takes pdftoppm")
    options = parser.parse_args()
    with contextlib.closing(Browser()) as browser:
        browser.resize(*options.size)
        browser.media(prefers_color_scheme="dark" if options.dark else "light")
        browser.open(options.page, "#" + options.byte if options.byte else "")
        browser.settle()
        if options.print:
            first_sheet(browser, options.out)
        else:
            browser.picture(options.out)


def first_sheet(browser, out):
    with tempfile.TemporaryDirectory() as folder:
        pdf = pathlib.Path(folder) / "page.pdf"
        browser.pdf(pdf)
        subprocess.run(["pdftoppm", "-r", str(DOTS_PER_INCH), "-png", "-singlefile", str(pdf), str(out.with_suffix(""))], check=True)


if __name__ == "__main__":
    main()
