"""Pages of files: the paths of those in folders, and their texts."""
import os

ENDINGS = (".html", ".htm")


def files_in(folders):
    """The paths of the pages in some folders, in order."""
    found = (f"{above}/{name}" for folder in folders for above, _, names in os.walk(folder) for name in names if name.endswith(ENDINGS))
    return sorted(it for it in found if os.path.isfile(it))


def text_in(file):
    """The text of a file, with U+FFFD for bytes that are not of UTF-8."""
    with open(file, encoding="utf-8", errors="replace", newline="") as it:
        return it.read()
