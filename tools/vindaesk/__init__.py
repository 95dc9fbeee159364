"""What the tools beside the program have in common. None of it has a rule of layout of its own: all that a tool says of
views and pictures comes from what the program writes.

Its subpackages, each of which uses only those below it:

    command_line    one module a command, what their calls have in common, and `vindaesk` itself
    building        proves and builds the program, for the launcher; installing puts all of it elsewhere, or into packages
    pytest_plugin   stored scripts as tests of pytest, and fixtures; it is a module of its own
    session         one program that is driven line by line; pages, lint, testing: pages in HTML, rules, stored scripts
    apps            apps, and their layouts
    views           the views of a script, and where they are in the window
    pictures        PNG files, the pictures of frames, and where two differ
    layouts         documents of compiled XML: their elements, values, sources, and faults
    scripts         lines, names of ids, replies, refusals
    program         the program as a process, its calls and statuses
    provenance      of which sources the program is: dist/, what was built here, and which of them is run
    common          files, messages, failures, progress
"""
