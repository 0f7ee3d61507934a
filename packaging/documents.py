"""The documents of a package: those by which the program is used, with links among themselves alone."""
import posixpath
import re

LINK = re.compile(r"\[([^\]]*)\]\(([^)\s#]+)(?:#[^)\s]*)?\)")
USE = re.compile(r"^- \*Use it\*: .*", re.MULTILINE)


def documents_of_use(readme):
    """The paths of the documents by which the program is used, as the README's list has them."""
    listed = USE.search(readme.read_text(encoding="utf-8"))[0]
    return sorted({path for _, path in LINK.findall(listed)})


def linked_among(document, text, packed):
    """The text of a document at a path, in which a link to what is not packed is its words alone."""

    def kept(link):
        target = posixpath.normpath(posixpath.join(posixpath.dirname(document), link[2]))
        return link[0] if ":" in link[2] or target in packed else link[1]

    return LINK.sub(kept, text)
