def test_card(vindaesk_session, assert_bounds, assert_picture):
    s = vindaesk_session
    s.script("include card.script")
    assert_bounds("@id/reply", 148, 0, 288, 48)
    assert "v6 click" in s.tap("@id/reply")
    assert_picture("card.png")
