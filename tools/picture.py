"""Whether a file is a picture: an svg that an XML parser reads, of at most 100 KB. Says what is wrong, if something is."""

import os
import sys
import xml.etree.ElementTree

path = sys.argv[1]
try:
    root = xml.etree.ElementTree.parse(path).getroot()
except xml.etree.ElementTree.ParseError as error:
    sys.exit(f"it is not well-formed: {error}")
if root.tag != "{http://www.w3.org/2000/svg}svg":
    sys.exit(f"its root is {root.tag}, and no svg")
if os.path.getsize(path) > 100 << 10:
    sys.exit(f"it has {os.path.getsize(path)} bytes, and is to have 100 KB at most")
