"""Android's classes are cut by their members."""
import pytest

import android_cut

SOURCE = '''/* a { */
package a.b;
import a.b.Known;
import static a.b.Known.VALUE;
import c.Unknown;
import java.util.List;
// class Other {
@Remote(names = {"}"})
public class Thing extends Other {
    public static final int ONE = 1;
    private static final String TWO = "{" + ONE;
    private int[] mList = new int[] { 1, 2 };
    @Thing({1, 2}) private char mBrace = '}';
    static { load(); }
    Thing() { this(ONE); }
    /** } */
    Thing(int a) {
        switch (a) {
            case R.Thing_good: run(); break;
            case R.Thing_bad: explode(); break;
        }
    }
    <T> void run(java.util.Map<T, T> a, int b) throws E { if (a != null) { TWO.length(); } }
    abstract int open();
    static class Inner { int run() { return 1; } }
}
'''


def test_members_have_names_and_numbers_of_parameters() -> None:
    found = android_cut.read(SOURCE)
    assert [it.key for it in found.members] == [
        "ONE", "TWO", "mList", "mBrace", "static", "Thing/0", "Thing/1", "run/2", "open/0", "Inner"]
    assert found.head == "public class Thing extends Other"
    assert [it.name for it in found.members if it.is_constant] == ["ONE", "TWO"]


def test_what_is_kept_has_the_constants_that_it_names() -> None:
    cut = android_cut.read_cut("from a\nkeep run\n---\nint own() { return 2; }")
    texts = android_cut.members_of(android_cut.read(SOURCE), cut)
    assert [android_cut.member(it).key for it in texts] == ["ONE", "TWO", "run/2"]


def test_a_member_of_our_own_replaces_one_and_cases_go() -> None:
    cut = android_cut.read_cut("from a\nkeep Thing run\ncases Thing good\n---\nThing() { }")
    texts = android_cut.members_of(android_cut.read(SOURCE), cut)
    assert "explode" not in "".join(texts) and "this(ONE)" not in "".join(texts) and "run();" in "".join(texts)


def test_a_part_is_swapped_once() -> None:
    cut = android_cut.read_cut("from a\nkeep run\nswap run | TWO.length() | stop()\n---\n")
    assert "stop();" in android_cut.members_of(android_cut.read(SOURCE), cut)[-1]
    cut = android_cut.read_cut("from a\nkeep run\nswap run | absent | stop()\n---\n")
    with pytest.raises(AssertionError):
        android_cut.members_of(android_cut.read(SOURCE), cut)


def test_imports_of_what_is_not_there_go() -> None:
    found = android_cut.with_imports(android_cut.plain(SOURCE), {"a.b.Known"})
    assert "c.Unknown" not in found and "a.b.Known;" in found and "Known.VALUE;" in found and "java.util.List" in found
