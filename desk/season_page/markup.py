"""Text that becomes a part of a page, and never of its code."""
from html import escape


def escaped(text):
    return escape(str(text), quote=True)


def tag(name, inner, **attributes):
    """An element around HTML. Attributes are text; class_ is class, and data_step is data-step."""
    words = ''.join(f' {key.rstrip("_").replace("_", "-")}="{escaped(value)}"' for key, value in attributes.items())
    return f'<{name}{words}>{inner}</{name}>'


def row(cells, is_marked):
    """A row of texts, whose first names it."""
    inner = tag('th', escaped(cells[0]), scope='row') + ''.join(tag('td', escaped(cell)) for cell in cells[1:])
    return tag('tr', inner, class_='marked') if is_marked else tag('tr', inner)


def table(heading, rows, caption, marked=()):
    """A table of texts. Marked rows stand out."""
    head = tag('tr', ''.join(tag('th', escaped(cell), scope='col') for cell in heading))
    body = ''.join(row(cells, at in marked) for at, cells in enumerate(rows))
    return tag('table', tag('caption', escaped(caption)) + tag('thead', head) + tag('tbody', body))
