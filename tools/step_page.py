"""A picture of sync-draw, from standard input, in a page that goes through its steps, on standard output: tools/step_page.py [CAPTION]

The caption's first sentence is the page's title. A page that has one is of docs/pages, and leads to its text in the playground.
"""

import html
import os
import re
import sys

page = open(f"{os.path.dirname(__file__)}/step_page.html", encoding="utf-8").read()
sys.stdin.reconfigure(encoding="utf-8")
sys.stdout.reconfigure(encoding="utf-8")
picture, title, caption = sys.stdin.read(), "", ""
if sys.argv[1:]:
    title, _, rest = html.escape(sys.argv[1]).partition(". ")
    title = title.removesuffix(".")
    # The text: its first line, and the others, of the first run where there are two.
    run = picture.split("</svg>")[0]
    text = re.findall(r'<text class="head" x="12" y="22">(.*?)</text>', run) + re.findall(r'<text class="soft end" x="46" .*\n<text class="" x="58" [^>]*>(.*?)</text>', run)
    links = f'<a href="../play.html#play/{"/".join(line.replace(" ", "+") for line in text)}">Play this text</a>, <a href="../TEXT.md#the-examples">all examples</a>'
    caption = f"{f'<p>{rest}</p>' if rest else ''}<nav><p>{links}</p></nav>"
sys.stdout.write(page.replace("<!-- title -->", title).replace("<!-- caption -->", caption).replace("<!-- picture -->\n", picture))
