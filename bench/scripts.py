"""Scripts for the benchmark, each made for a size; some with the layout file that they read."""
import collections

import files

# the word of a dimension of one pixel
PIXEL = 0x100

# a script, the layout file `layout.xml` that it reads, and how many views it makes
Inflating = collections.namedtuple("Inflating", "script layout views")


def tree(views):
    """A window and one frame layout; with the root there are this many views."""
    return b"window 1000 1000\nadd root FrameLayout wrap wrap\n" + b"".join(
        b"add v1 %s %d %d\n" % ((b"View", 1 + k % 900, 1 + k % 700) if k % 4 else (b"FrameLayout", 7, 9))
        for k in range(views - 1)
    )


def frames(n):
    """This many frames, of which all but the first come after no edit."""
    return tree(4096) + b"frame\n" * n


def windows(n):
    """A frame in each of this many small windows, of 4096 views that match: each is measured twice for each window,
    since there are more windows than it remembers sizes."""
    views = b"window 64 48\nadd root FrameLayout wrap wrap\n" + b"add v1 View match match\n" * 4095
    return views + b"".join(b"window %d 48\nframe\n" % (64 + k % 16) for k in range(n))


def windows_of_one_size(n):
    """A window of 2048 by 2048 pixels, again and again."""
    return b"window 2048 2048\n" * n


def edited_frames(n):
    """A frame after each of this many edits, of one view or another of 4096, each with up to 31 views around it."""
    lines = [nested(4096)]
    for k in range(n):
        lines.append(b"min v%d %d %d\nframe\n" % (1 + k * 7919 % 4096, k % 90, k % 70))
    return b"".join(lines)


def frames_of_twins(n):
    """16 groups, one in another. Each wraps its height, and it and a view beside it match the width of the group around them: so each
    is asked twice for each time that this is measured. The innermost view changes before each frame."""
    lines = [b"window 600 1\nadd root FrameLayout wrap wrap\n"]
    for deep in range(16):
        around = 2 * deep or 1
        lines.append(b"add v%d FrameLayout match wrap\nadd v%d View match 10\n" % (around, around))
    lines.append(b"add v32 View 10 10\n")
    return b"".join(lines) + b"".join(b"size v34 %d %d\nframe\n" % (10 + k % 90, 10 + k % 70) for k in range(n))


def frames_of_weighted_twins(n):
    """The same of linear layouts by turns down and across, in each of which a group and a view have weights. Here a group is measured
    for more specs than it remembers sizes."""
    lines = [b"window 64 48\nadd root LinearLayout match match\n"]
    for deep in range(16):
        around = 2 * deep or 1
        turned, sides = ((b"vertical", b"match wrap"), (b"horizontal", b"wrap match"))[deep % 2]
        lines.append(b"orient v%d %s\nadd v%d LinearLayout %s\nadd v%d View 10 10\n" % (around, turned, around, sides, around))
        lines.append(b"weight v%d 1\nweight v%d 1\n" % (2 * deep + 2, 2 * deep + 3))
    lines.append(b"add v32 View 10 10\n")
    return b"".join(lines) + b"".join(b"size v34 %d %d\nframe\n" % (10 + k % 90, 10 + k % 70) for k in range(n))


def weighted_frames(n):
    """One linear layout of 4095 views with weights. Before each frame one weight is another, and so is each share."""
    lines = [b"window 4096 100\nadd root LinearLayout match match\n"]
    for number in range(2, 4097):
        lines.append(b"add v1 View %d match\nweight v%d %d\n" % (number % 3, number, 1 + number % 7))
    return b"".join(lines) + b"".join(b"weight v2 %d\nframe\n" % (1 + k * 97 % 30000) for k in range(n))


def nested_weighted_frames(n):
    """Linear layouts of four views with weights each, 4 levels deep and by turns across and down: what is deeper is asked twice
    for each measuring of its group. Before each frame the outermost group is asked for other shares."""
    lines = [b"window 1000 1000\nadd root LinearLayout match match\n"]
    level, number = [1], 1
    for deep in range(4):
        below = []
        for group in level:
            if deep % 2:
                lines.append(b"orient v%d vertical\n" % group)
            for child in range(4):
                number += 1
                lines.append(b"add v%d %s 9 9\n" % (group, b"View" if deep == 3 else b"LinearLayout"))
                lines.append(b"weight v%d %d\n" % (number, 1 + child))
                below.append(number)
        level = below
    return b"".join(lines) + b"".join(b"weight v2 %d\nframe\n" % (1 + k * 7 % 300) for k in range(n))


def frames_of_texts(n):
    """A column of 4000 texts of 60 characters, one of which gets another width before each frame."""
    lines = [b"window 1000 1000\nadd root LinearLayout match match\norient v1 vertical\n"]
    for number in range(2, 4002):
        lines.append(b"add v1 TextView 100 wrap\ntext v%d %060d\n" % (number, number))
    return b"".join(lines) + b"".join(b"size v%d %d wrap\nframe\n" % (2 + k % 4000, 90 + k % 9) for k in range(n))


def filled(alpha, n):
    """A window of 2048 by 2048 that one view fills with another colour in each frame."""
    lines = [b"window 2048 2048\nadd root View match match\n"]
    return b"".join(lines) + b"".join(b"bg v1 #%s%06x\nframe\n" % (alpha, 0x336699 + k) for k in range(n))


def opaque_frames(n):
    return filled(b"ff", n)


def blended_frames(n):
    return filled(b"80", n)


def frames_of_a_dot(n):
    """A view of 8 by 8 pixels in a window of 1024 by 768, which gets another colour before each frame."""
    lines = [b"window 1024 768\nadd root FrameLayout match match\nbg v1 #ff336699\nadd v1 View 8 8\n"]
    return b"".join(lines) + b"".join(b"bg v2 #ff%06x\nframe\n" % k for k in range(n))


def frames_of_small_views(n):
    """4000 views of 12 by 9 pixels, each with a background of its own, over one that changes before each frame."""
    lines = [b"window 1000 1000\nadd root FrameLayout match match\n"]
    for number in range(2, 4002):
        at = number - 2
        lines.append(b"add v1 View 12 9\nmargins v%d %d %d 0 0\n" % (number, at % 80 * 12, at // 80 * 18))
        lines.append(b"bg v%d #ff%06x\n" % (number, at * 4099 % 0x1000000))
    return b"".join(lines) + b"".join(b"bg v1 #ff%06x\nframe\n" % k for k in range(n))


def frames_of_a_small_view(n):
    """60 rows of 64 views of 8 by 8 pixels, one of which gets another colour before each frame."""
    lines = [b"window 640 480\nadd root LinearLayout match match\norient v1 vertical\n"]
    lines += [b"add v1 LinearLayout match 8\n" + b"add v%d View 8 8\n" % (2 + 65 * row) * 64 for row in range(60)]
    edits = [b"bg v%d #ff%06x\nframe\n" % (3 + 65 * (k * 7 % 60) + k % 64, k * 4099 % 0x1000000) for k in range(n)]
    return b"".join(lines + edits)


def frames_of_a_page(n):
    """A page of text that fills the window, over a colour that changes before each frame."""
    text = b"The quick brown fox jumps over the lazy dog. " * 21
    lines = [b"window 540 960\nadd root LinearLayout match match\norient v1 vertical\n"]
    for number in range(2, 12):
        lines.append(b"add v1 TextView match wrap\ntext v%d %s\n" % (number, text))
    return b"".join(lines) + b"".join(b"bg v1 #ff%06x\nframe\n" % k for k in range(n))


def digests(n):
    """Digests of pictures of 1024 by 1024 pixels, each of another colour."""
    lines = [b"window 1024 1024\nadd root View match match\n"]
    return b"".join(lines) + b"".join(b"bg v1 #ff%06x\nframe\ndigest\n" % k for k in range(n))


def digests_of_a_picture(n):
    return b"window 1024 1024\nadd root View match match\nbg v1 #ff336699\nframe\n" + b"digest\n" * n


def pixels(n):
    """A picture of 1024 by 1024 points, part by part."""
    picture = b"".join(b"pixels 0 %d 1024 64\n" % top for top in range(0, 1024, 64))
    return b"window 1024 1024\nadd root View match match\nbg v1 #ff336699\nframe\n" + picture * n


def widths_of_a_text(n):
    """A text that is as long as a line of a script can be, in frames of the widths 1 to n."""
    line = b"text v2 "
    begun = b"window 1000 1000\nadd root FrameLayout match match\nadd v1 TextView 1 wrap\n"
    text = line + b"x" * (1024 - len(line)) + b"\n"
    return begun + text + b"".join(b"size v2 %d wrap\nframe\n" % (width + 1) for width in range(n))


def bounds(n):
    return tree(4096) + b"frame\n" + b"bounds\n" * n


def bounds_of(views):
    return tree(views) + b"frame\n" + b"bounds\n" * 100


def frames_of(views):
    return tree(views) + b"frame\n" * 1000


def nested(views):
    """A window and this many views in frame layouts of up to 32 views each, which are nested 31 deep."""
    names = [1]
    lines = [b"window 1000 1000\nadd root FrameLayout wrap wrap\n"]
    while len(names) < views:
        k = len(names)
        parent = k if k % 31 else 1
        lines.append(b"add v%d FrameLayout wrap wrap\n" % parent)
        names.append(k + 1)
    return b"".join(lines)


def edits(n):
    """This many edits of 4096 views by their numbers, with a frame after each thousand."""
    lines = [nested(4096)]
    for k in range(n):
        lines.append(b"min v%d %d %d\n" % (1 + k * 7919 % 4096, k % 90, k % 70))
        if k % 1000 == 999:
            lines.append(b"frame\n")
    return b"".join(lines)


def edits_by_id(n):
    """The same by ids; the view of an id is the first in preorder that has it."""
    lines = [nested(4096)] + [b"id v%d @%x\n" % (1 + k * 16, 1 + k) for k in range(256)]
    for k in range(n):
        lines.append(b"min @%x %d %d\n" % (1 + k * 7919 % 256, k % 90, k % 70))
        if k % 1000 == 999:
            lines.append(b"frame\n")
    return b"".join(lines)


def edits_by_own_id(views):
    """This many views, each with an id of its own, and 100000 edits by these ids, in an order that jumps about."""
    lines = [nested(views)] + [b"id v%d @%x\n" % (1 + k, 0x7f000000 + k) for k in range(views)]
    lines += [b"min @%x %d %d\n" % (0x7f000000 + k * 7919 % views, k % 90, k % 70) for k in range(100000)]
    return b"".join(lines)


def frames_of_nested_groups(n):
    """32 groups, one in another, with a second measuring in each but the last: it wraps, and two more children match. The innermost
    gets another size before each frame."""
    children = [b"View match match", b"View match 9", b"FrameLayout wrap wrap"]
    lines = [b"window 1000 1000\nadd root FrameLayout wrap wrap\n"]
    for group in range(1, 92, 3):
        lines += [b"add v%d %s\n" % (group, child) for child in children]
    return b"".join(lines) + b"".join(b"min v94 %d %d\nframe\n" % (k % 90, k % 70) for k in range(n))


def turned_frames(views):
    """Views in two lines, which run another way before each of 300 frames."""
    lines = [b"window 1000 1000\nadd root LinearLayout match match\nadd v1 LinearLayout match match\n"]
    lines += [b"add v%d View %d %d\n" % (2 - k % 2, 1 + k % 9, 1 + k % 7) for k in range(views - 2)]
    return b"".join(lines) + b"".join(b"direction v1 %s\nframe\n" % (b"ltr", b"rtl")[k % 2] for k in range(300))


def group(children, is_chain, lines):
    """A relative layout of this many children with the ids 1, 2, .., each right of the one before in a chain, and these
    lines."""
    begun = b"window 4096 1000\ninflate layout.xml\n"
    return Inflating(begun + lines, files.tied_views_file(2 + children // 7, children, is_chain), 1 + children)


def frames_of_a_chain(children):
    """The first child gets another size before each frame."""
    return group(children, True, b"".join(b"size v2 %d 1\nframe\n" % (1 + k % 9) for k in range(200)))


def rules_in_a_chain(children):
    """200 rules more, each of which makes the orders of all children anew."""
    lines = [b"rule v%d below @1\n" % (3 + k * 7 % (children - 1)) for k in range(200)]
    return group(children, True, b"".join(lines) + b"frame\n")


def ids_in_a_chain(children):
    """A child in the middle gets another id, so that the one after it is tied to no other, or its own again."""
    middle = children // 2
    lines = [b"id v%d @%x\n" % (1 + middle, middle if k % 2 else 0x7f000000) for k in range(200)]
    return group(children, True, b"".join(lines) + b"frame\n")


def ends_of_a_chain(children):
    """The last child is removed, and another one takes its place."""
    lines = [b"remove v%d\nadd v1 View 1 1\n" % (1 + children + k) for k in range(200)]
    ties = [b"rule v%d right_of @%x\n" % (2 + children + k, children - 1) for k in range(200)]
    return group(children, True, b"".join(line + tie for line, tie in zip(lines, ties)) + b"frame\n")


def rules_in_a_group(children):
    """2000 rules, each of which ties a child to the one before it."""
    places = [k * 7 % (children - 1) for k in range(2000)]
    lines = [b"rule v%d right_of @%x\n" % (3 + place, 1 + place) for place in places]
    return group(children, False, b"".join(lines) + b"frame\n")


def gone_in_a_chain(children):
    """A relative layout, half of whose children are gone and in a chain; the others are tied to its end. Elsewhere half of the ids
    are held once more."""
    half = children // 2
    lines = [b"window 100 100\nadd root FrameLayout match match\nadd v1 RelativeLayout match match\nadd v1 FrameLayout match match\n"]
    lines += [b"add v2 View 1 1\nid v%d @%x\n" % (3 + number, number) for number in range(1, children + 1)]
    lines += [b"add v3 View 1 1\nid v%d @%x\n" % (3 + children + number, number) for number in range(1, half + 1)]
    lines += [b"visible v%d gone\nrule v%d right_of @%x\n" % (3 + number, 3 + number, number - 1) for number in range(1, half + 1)]
    lines += [b"rule v%d right_of @%x\n" % (3 + number, half) for number in range(half + 1, children + 1)]
    return b"".join(lines) + b"frame\n"


def rules_of_one_id(children):
    """The first child names the id that all others have, and no longer, 100 times."""
    lines = [b"window 100 100\nadd root RelativeLayout match match\nadd v1 View 1 1\n"]
    lines += [b"add v1 View 1 1\nid v%d @5\n" % (2 + number) for number in range(1, children)]
    return b"".join(lines) + b"rule v2 right_of @5\nrule v2 right_of @0\n" * 100 + b"frame\n"


def ids_in_a_group(children):
    """2000 new ids for children that no rule ties."""
    lines = [b"window 100 100\nadd root RelativeLayout match match\n" + b"add v1 View 1 1\n" * children]
    lines += [b"id v%d @%x\n" % (2 + k % children, 1 + k) for k in range(2000)]
    return b"".join(lines) + b"frame\n"


def restores(n):
    """Lines that restore a state, and none is saved."""
    return b"window 9 9\nadd root FrameLayout match match\n" + b"restore\n" * n


def short_edits(mib):
    """This many MiB of short edits."""
    line = b"min v1 1 1\n"
    return b"window 9 9\nadd root View 1 1\n" + line * ((mib * 2**20 - 100) // len(line))


def removed_and_made(n):
    """Subtrees of 31 views that are made and removed again, this many times."""
    made = b"".join(b"add @%x FrameLayout 1 1\nid v%%d @%x\n" % (k, k + 1) for k in range(1, 31))
    lines = [b"window 9 9\nadd root FrameLayout match match\nid v1 @1\n"]
    number = 2
    for _ in range(n):
        lines.append(made % tuple(range(number, number + 30)))
        lines.append(b"remove @2\n")
        number += 30
    return b"".join(lines)


def comments(mib):
    line = b"#" + b" comment" * 7 + b" end.."
    return (line + b"\n") * (mib * 2**20 // (len(line) + 1))


def empty_lines(mib):
    return b"\n" * (mib * 2**20)


def one_line(mib):
    return b"x" * (mib * 2**20)


def refused(n):
    return b"x\n" * n


def by_turns(first, second):
    """One of two words, which the next round over all views has the other way round."""
    return lambda k: second if k // VIEWS_OF_LINES % 2 else first


def color(k):
    return b"#ff%06x" % (k * 4099 % 0x1000000)


# how many views there are to which lines of a kind go in turn
VIEWS_OF_LINES = 64

# by the name of a kind of line: its first word, and what the k-th line of that kind has after the view
KINDS_OF_LINES = {
    "size": (b"size", lambda k: b"%d %d" % (10 + k % 80, 10 + k % 70)),
    "min": (b"min", lambda k: b"%d %d" % (k % 80, k % 70)),
    "margins": (b"margins", lambda k: b"%d 2 %d 4" % (k % 80, k % 70)),
    "padding": (b"padding", lambda k: b"%d 2 %d 4" % (k % 80, k % 70)),
    "weight": (b"weight", lambda k: b"%d" % (k % 90)),
    "weightsum": (b"weightsum", lambda k: b"%d" % (k % 90)),
    "gravity": (b"gravity", by_turns(b"kids top|left", b"kids center")),
    "bg": (b"bg", color),
    "visible": (b"visible", by_turns(b"visible", b"invisible")),
    "gone": (b"visible", by_turns(b"gone", b"visible")),
    "scroll": (b"scroll", lambda k: b"%d" % (k % 300)),
    "ink": (b"ink", color),
    "direction": (b"direction", by_turns(b"rtl", b"ltr")),
    "orient": (b"orient", by_turns(b"vertical", b"horizontal")),
    "answer": (b"answer", by_turns(b"yes", b"click")),
    "id": (b"id", lambda k: b"@%x" % (0x7f000000 + k % 997)),
    "flag": (b"flag", by_turns(b"clip yes", b"clip no")),
    "text": (b"text", lambda k: b"w%d" % (k % 100)),
    "intercept": (b"intercept", by_turns(b"down", b"move up")),
    "rule": (b"rule", by_turns(b"parent_left yes", b"parent_left no")),
    "disallow": (b"disallow", by_turns(b"yes", b"no")),
}

# by the name of a kind of line of a stack of 8 windows, the first of which has a root: the k-th line of that kind
KINDS_OF_STACK_LINES = {
    "at": lambda k: b"at %d %d %d\n" % (k % 8, k % 50, k % 70),
    "raise": lambda k: b"raise %d\n" % (k * 3 % 8),
    "in": lambda k: b"in 0 size v1 %d %d\n" % (10 + k % 80, 10 + k % 70),
}

# by such a kind, the class of the views where other classes refuse the line
CLASSES_OF_LINES = {"text": b"TextView", "ink": b"TextView", "scroll": b"ScrollView", "orient": b"LinearLayout",
                    "weightsum": b"LinearLayout", "gravity": b"LinearLayout"}


def lines_of(kind):
    """How a script is made of lines of a kind, each to another of 64 views than the one before."""
    word, rest_of = KINDS_OF_LINES[kind]
    children = b"add v1 %s 10 10\n" % CLASSES_OF_LINES.get(kind, b"FrameLayout") * VIEWS_OF_LINES
    begun = b"window 1000 1000\nadd root LinearLayout match match\n" + children

    def made(n):
        return begun + b"".join(b"%s v%d %s\n" % (word, 2 + k * 7 % VIEWS_OF_LINES, rest_of(k)) for k in range(n))

    return made


def stack_lines_of(kind):
    """The same for lines of a stack."""
    begun = b"".join(b"at %d %d 0\n" % (k, k) for k in range(8)) + b"in 0 window 100 100\nin 0 add root FrameLayout 9 9\n"
    return lambda n: begun + b"".join(KINDS_OF_STACK_LINES[kind](k) for k in range(n))


def lines_of_spaces(n):
    return b"   \n" * n


def inflated(times, views):
    """The lines that make the views of the layout file this many times, and take them away before the next time."""
    lines = [b"inflate layout.xml\n"]
    for number in range(1, times):
        lines.append(b"remove v%d\ninflate layout.xml\n" % (1 + (number - 1) * views))
    return b"".join(lines)


def files_of_500(times):
    """A layout file of 500 elements with 12 attributes each, this many times."""
    layout = files.views_file(256, 500, lambda number: [PIXEL * (k + number % 7) for k in range(12)])
    return Inflating(inflated(times, 500), layout, 500 * times)


def one_file(kib, views, attributes):
    """One layout file of this many views with as many attributes each, 20 times."""
    layout = files.views_file(kib, views, lambda number: [PIXEL * (k + number % 7) for k in range(attributes)])
    return Inflating(inflated(20, views), layout, 20 * views)


def file_of_4096(kib):
    """A layout file of 4096 elements, which have as many attributes as give it this size."""
    return one_file(kib, 4096, 3 if kib <= 512 else 9)


def file_of_elements(kib):
    """A layout file of elements with 9 attributes, four elements a KiB."""
    return one_file(kib, 4 * kib, 9)


def resources(count):
    """This many resources, and 20 times a layout file that names them all, twelve in an element."""
    defined = b"".join(b"res @%x dimen %d dp\n" % (0x7f050000 + k, k % 90) for k in range(count))
    views = 1 + -(-count // 12)
    layout = files.views_file(256, views, lambda number: [0x7f050000 + (12 * number + k) % count for k in range(12)], 0x01)
    return Inflating(defined + inflated(20, views), layout, 20 * views)


def nested_groups():
    """A window and 31 frame layouts one in the other, in the innermost a view that takes every touch."""
    lines = [b"window 1000 1000\nadd root FrameLayout match match\n"]
    lines += [b"add v%d FrameLayout match match\n" % number for number in range(1, 31)]
    return b"".join(lines) + b"add v31 View match match\nanswer v32 yes\nframe\n"


def moves(n):
    """Moves through 32 nested views."""
    return nested_groups() + b"down 0 5 5\n" + b"".join(b"move 0 %d 7\n" % (k % 900) for k in range(n))


def taps(n):
    """A pointer goes down and up, each time past 3999 children that are not under it, to the first one, which takes
    it."""
    children = b"add v1 View match match\n" + b"add v1 View 1 1\n" * 3999
    touch = b"answer v2 yes\nframe\n" + b"down 0 5 5\nup 0\n" * n
    return b"window 100 100\nadd root FrameLayout match match\n" + children + touch


def moves_of_two(n):
    """Two pointers on two targets."""
    views = b"window 1000 20\nadd root LinearLayout match match\nadd v1 View 500 match\nadd v1 View 500 match\n"
    touch = b"answer v2 yes\nanswer v3 yes\nframe\ndown 0 10 5\ndown 1 510 5\n"
    return views + touch + b"".join(b"move %d %d 5\n" % (k % 2, k % 500) for k in range(n))
