#!/usr/bin/env python3
"""picture.py OUT.png: the picture of a season's page for the README, with a step pointed at."""
import os
import sys
import tempfile

sys.dont_write_bytecode = True
sys.path.insert(0, os.path.dirname(os.path.abspath(__file__)))

# pylint: disable=wrong-import-position
import chromium
from page_sticks import EXAMPLES, call

WIDTH, HEIGHT, STEP, STEPS = 1360, 1264, 89, 336


def main(out):
    with tempfile.TemporaryDirectory() as folder, chromium.Browser() as browser:
        page_file = os.path.join(folder, 'page.html')
        status, _, errors = call(os.path.join(EXAMPLES, 'harvest.stick'), page_file)
        if status != 0:
            sys.exit(errors)
        page = chromium.Page(browser, WIDTH, HEIGHT)
        page.open(page_file)
        left, top, width = page.evaluate('''(() => {
          const box = document.querySelector('#meter .surface').getBoundingClientRect();
          return [box.left + 68, box.top, box.width - 82]; })()''')
        page.mouse('mouseMoved', left + width * (STEP + 0.5) / STEPS, top + 100)
        page.frames()
        with open(out, 'wb') as file:
            file.write(page.picture())


if __name__ == '__main__':
    if len(sys.argv) != 2:
        sys.exit('usage: picture.py OUT.png')
    main(sys.argv[1])
