"""What a provisioning and a change of one entry do to every frame. Where a test fails, it shows a frame that is treated otherwise than meant."""

from test_provisioning import PROVISIONING

from onuctl import cover, differences, encode, expect, hitless

# Frames without a tag are to get VID 300: the entry is overwritten, or deleted and set again.
OVERWRITTEN = "entry vlan 0x0701 tags=0 -> inner(pcp=0 vid=300 tpid=8100)\n"
SET_AGAIN = "remove-entry vlan 0x0701 tags=0\n" + OVERWRITTEN

LINES = PROVISIONING.count("\n")

# What is meant for frames that come in at port 257.
MEANT = """\
257 tags=0 -> gem 1024 inner(pcp=0 vid=100 tpid=8100)
257 tags=1 vid=100 -> gem 1024 remove=1 inner(pcp=inner vid=200 tpid=8100)
257 tags=2 -> gem 1024 unchanged
"""
# And what stays so while the entry for frames without a tag is replaced.
KEPT = """\
257 any -> gem 1024
257 tags=1 vid=100 -> remove=1 inner(pcp=inner vid=200 tpid=8100)
"""


def test_each_frame_of_a_class_comes_back() -> None:
    for each in cover(encode(PROVISIONING)):
        assert each.gem == 1024 or each.use == "unread", each


def test_frames_end_as_is_meant() -> None:
    for each in expect(encode(PROVISIONING), MEANT):
        assert each.holds, each


def test_frames_with_a_tag_stay_so_at_each_moment() -> None:
    for each in expect(encode(PROVISIONING + SET_AGAIN), KEPT, from_line=LINES):
        assert each.holds, each


def test_only_frames_without_a_tag_change() -> None:
    changed = differences(encode(PROVISIONING), encode(PROVISIONING + OVERWRITTEN))
    assert [(each.before.entry, each.after.entry) for each in changed] == [(0, 0)], changed
    assert changed[0].frame[12:14] == b"\x08\x00"


def test_no_moment_tears_a_frame() -> None:
    assert not hitless(encode(PROVISIONING + OVERWRITTEN), from_line=LINES)


def test_an_entry_that_is_deleted_first_tears_frames() -> None:
    torn = hitless(encode(PROVISIONING + SET_AGAIN), from_line=LINES)
    assert [(each.line, each.frame[12:14]) for each in torn] == [(LINES + 1, b"\x08\x00")], torn
