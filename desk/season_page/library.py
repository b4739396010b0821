"""The chart library, dygraphs, as Debian's package has it. It is put into the page when this is made."""
import os
import re

from .faults import Failed

PACKAGE = 'libjs-dygraphs'
FOLDER = '/usr/share/javascript/dygraphs'
LICENCE = f'/usr/share/doc/{PACKAGE}/copyright'

# What debuggers would fetch.
MAP = re.compile(r'^(//|/\*)# sourceMappingURL=.*$', re.MULTILINE)


def text(path):
    try:
        with open(path, encoding='utf-8') as file:
            return MAP.sub('', file.read())
    except (OSError, UnicodeDecodeError) as fault:
        raise Failed(f'the chart library cannot be read: {path}: {fault}\n'
                     f'    It is in Debian\'s package {PACKAGE}: apt-get install {PACKAGE}\n'
                     '    YB_DYGRAPHS names a folder that has dygraph.min.js, dygraph.min.css and its LICENSE.txt.') \
            from fault


class Library:
    """Program, style and licence of the library, from its package or from a folder that is named."""

    def __init__(self, environ):
        folder = environ.get('YB_DYGRAPHS') or FOLDER
        self.program = text(os.path.join(folder, 'dygraph.min.js'))
        self.style = text(os.path.join(folder, 'dygraph.min.css'))
        self.licence = text(LICENCE if folder == FOLDER else os.path.join(folder, 'LICENSE.txt'))
