"""Stored cases of Vindaesk as tests of Bazel. docs/FARMS.md has an example."""

# what belongs to one case; all other files belong to each
_OWN = ["script", "stack", "args", "answer", "status", "png"]

# runall reads the variables of Bazel's protocol itself
_COMMAND = """#!/bin/sh
VINDAESK_PROGRAM=$PWD/{program} exec python3 {runall} --jobs 1 {folder}
"""

def _named(files, end):
    """The path, from where a test runs, of the file of Vindaesk that ends so."""
    return [file.short_path for file in files if file.short_path.endswith(end)][0]

def _test(ctx):
    """Writes the command that runs the cases of a folder."""
    made = ctx.actions.declare_file(ctx.label.name + ".sh")
    own = ctx.files._vindaesk
    command = _COMMAND.format(program = _named(own, "/view_tool"), runall = _named(own, "/tools/runall"), folder = ctx.label.package or ".")
    ctx.actions.write(made, command, is_executable = True)
    return [DefaultInfo(executable = made, runfiles = ctx.runfiles(files = ctx.files.srcs + own))]

vindaesk_folder_test = rule(
    implementation = _test,
    doc = "One test of all the stored cases in srcs. With shard_count Bazel has runall take a part in each shard.",
    test = True,
    attrs = {
        "srcs": attr.label_list(allow_files = True),
        "_vindaesk": attr.label(default = Label("//:files")),
    },
)

def _case(path):
    """The name of the case that a file belongs to; None where it belongs to each."""
    stem, _, ending = path.rpartition(".")
    return stem.partition("@")[0] if ending in _OWN else None

def vindaesk_test(name, srcs, shard_count = 1, **others):
    """A test of stored cases, in shards that are tests of their own: where a case changes, only its shard is run again.

    Args:
      name: the name of all shards together; they are NAME_1, NAME_2 and so on.
      srcs: the scripts with their answers, and the files that they read.
      shard_count: how many shards there are at most. A case is in the one that the hash of its name says.
      **others: any other attribute of a test, as flaky or timeout.
    """
    common = [path for path in srcs if _case(path) == None]
    parts = [[] for _ in range(shard_count)]
    for path in srcs:
        if _case(path) != None:
            parts[hash(_case(path)) % shard_count].append(path)
    shards = {"%s_%d" % (name, number + 1): part for number, part in enumerate(parts) if part}
    if not shards:
        fail("%s: there is no script with an answer" % name)
    for shard, part in shards.items():
        vindaesk_folder_test(name = shard, srcs = common + part, **others)
    native.test_suite(name = name, tests = shards.keys())
