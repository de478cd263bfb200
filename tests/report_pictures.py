#!/usr/bin/env python3
"""Makes pictures of reports with headless Chromium (Debian's package), wide and narrow, and prints them to PDF, so that people can look at them.
The gate does not run this script.

usage: tests/report_pictures.py PDP8 FOLDER [NAME..]    of these examples, or, without names, of hello, punch and hello-broken. It
                                                         makes NAME.html, NAME-wide.png, NAME-narrow.png and NAME.pdf in FOLDER,
                                                         and for hello also report.png, which is docs/report.png
"""
import os
import subprocess
import sys
from pathlib import Path

sys.path.insert(0, str(Path(__file__).parent))
from reports import examples, ran  # noqa: E402

SIZES = {"wide": (1080, 2780), "narrow": (420, 4600)}


def browse(*words):
    """As root, Chromium needs --no-sandbox; the pages are our own and have no scripts."""
    words = ["chromium", "--headless=new", "--no-sandbox", "--disable-gpu", "--hide-scrollbars", *map(str, words)]
    subprocess.run(words, stdout=subprocess.DEVNULL, stderr=subprocess.DEVNULL, check=True, timeout=120)


def main():
    pdp8, folder, *names = sys.argv[1:]
    folder = Path(os.path.abspath(folder))
    folder.mkdir(parents=True, exist_ok=True)
    for name, tape, declaration, certificate in examples(pdp8, names or ["hello", "punch", "hello-broken"], folder):
        page = folder / f"{name}.html"
        ran(pdp8, "report", tape, declaration, certificate, "-o", page)
        for size, (width, height) in SIZES.items():
            browse(f"--screenshot={folder / f'{name}-{size}.png'}", f"--window-size={width},{height}", page.as_uri())
        browse(f"--print-to-pdf={folder / f'{name}.pdf'}", "--no-pdf-header-footer", page.as_uri())
        if name == "hello":
            browse(f"--screenshot={folder / 'report.png'}", "--force-device-scale-factor=0.68", "--window-size=1080,2400", page.as_uri())
        print(*sorted(path.name for path in folder.glob(f"{name}[.-]*")))


if __name__ == "__main__":
    main()
