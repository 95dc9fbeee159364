import sys

from vindaesk.program import native

with open(sys.argv[1], "rb") as file:
    page, status = native.library().run(b"window 360 640\ninflate page.xml\nframe\nbounds\n", {b"page.xml": file.read()})
print(page.decode(), end="")
sys.exit(status)
