import sys

from vindaesk.program import native

with open(sys.argv[1], "rb") as file:
    files = {b"page.xml": file.read()}
with native.library().session(files) as screen:
    for line in sys.stdin.buffer:
        text, status = screen.line(line.rstrip(b"\n"))
        print(text.decode(), end="", flush=True)
