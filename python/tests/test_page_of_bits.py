"""The bits of the selected attempt on the page of a run, in a browser. The tests are skipped if Chromium is not
installed."""

import pytest
from browser import PROGRAM
from test_page import WEAK, opened  # noqa: F401  a fixture
from test_report import record_of

pytestmark = pytest.mark.skipif(PROGRAM is None, reason="no chromium on the PATH")
TABLE = """[...document.querySelectorAll('#chosen table')]
  .find(one => one.previousElementSibling.textContent.startsWith('Bits on the wire'))"""
# The rows of the table. Stuff bits are in parentheses, and marked bits in braces.
ROWS = f"""[...({TABLE}).rows].slice(1).map(row => {{
  const said = one => one.tagName === 'U' ? `(${{one.textContent}})`
    : one.tagName === 'MARK' ? `{{${{[...one.childNodes].map(said).join('')}}}}` : one.textContent;
  const [field, bits, notes] = row.cells;
  return [field.textContent, [...bits.firstChild.childNodes].map(said).join(''), notes.textContent];
}})"""
# The bits of 000#, computed by hand: 34 zeros, with a stuff bit after every five bits. 001# loses in the last bit of
# its identifier, which is the 14th bit on the wire.
ZEROS = [
    ["SOF", "0", ""],
    ["identifier", "0000(1)00000(1)0{0}", "can1 falls silent in bit 13"],
    ["RTR", "0", ""],
    ["IDE", "0", ""],
    ["reserved", "0(1)", ""],
    ["DLC", "0000", ""],
    ["CRC", "0(1)00000(1)00000(1)0000", ""],
    ["CRC delimiter", "1", ""],
    ["ACK slot", "0", ""],
    ["ACK delimiter", "1", ""],
    ["EOF", "1111111", ""],
    ["intermission", "111", ""],
]


@pytest.fixture
def shown(opened):  # noqa: F811
    """The page of a run in which can1 loses arbitration to can0 twice, and in which can1's own frame then has three
    faults."""
    return opened(
        record_of(
            "open 0 256 = socket 0",
            "open 1 256 = socket 1",
            "send 0 000# = number 0",
            "send 1 001#FF = number 0",
            "attempt 0.000001 global-bit = tried 0 0 000# destroyed 0000 0000",
            "attempt 0.000002 good = tried 0 0 000# done 0002 0000",
            "attempt 0.000003 local-crc:0001 = tried 1 0 001#FF destroyed 0000 0000",
            "attempt 0.000004 global-form = tried 1 0 001#FF destroyed 0000 0000",
            "attempt 0.000005 lastbit = tried 1 0 001#FF lastbit 0001 0000",
        )
    )


def rows_at(shown, attempt):
    """Returns the table rows for an attempt."""
    shown.run(f"choose({attempt})")
    return shown.run(ROWS)


def test_who_falls_silent_where(shown):
    assert rows_at(shown, 1) == ZEROS
    title = shown.run(f"({TABLE}).previousElementSibling.textContent")
    assert title == "Bits on the wire: 53, of which 6 stuff bits are underlined"


def test_a_fault_in_no_bit_of_its_own_has_its_field(shown):
    seen = [[field, notes] for field, _, notes in rows_at(shown, 0) if notes]
    assert seen == [
        ["identifier", "can1 falls silent in bit 13"],
        ["DLC", "global bit: seen by the end of this field"],
    ]
    assert "{" not in "".join(bits for field, bits, _ in rows_at(shown, 2) if field != "identifier")
    assert [row[::2] for row in rows_at(shown, 2) if row[2]] == [["ACK delimiter", "local crc at can0: seen by here"]]
    assert [row[::2] for row in rows_at(shown, 3) if row[2]] == [["ACK delimiter", "global form: seen by here"]]


def test_a_fault_in_the_last_bit(shown):
    assert [row for row in rows_at(shown, 4) if row[2]] == [["EOF", "111111{1}", "last bit, at the sender only"]]


def test_stuff_bits_are_seen_without_colours(shown):
    rows_at(shown, 1)
    style = "getComputedStyle(document.querySelector('.bits .stuff'))"
    assert shown.run(f"{style}.textDecorationLine") == "underline"
    assert shown.run(f"{style}.color !== getComputedStyle(document.querySelector('.bits')).color")


def focused(shown, *keys):
    """Presses these keys. Returns the field that then has the focus, or None if the focus is not visible."""
    for key in keys:
        shown.key(key)
    return shown.run(
        """(() => {
      const one = document.activeElement, row = one.getBoundingClientRect(), box = at('chosen').getBoundingClientRect();
      const isSeen = getComputedStyle(one).outlineStyle === 'solid' && row.top >= box.top && row.bottom <= box.bottom;
      return isSeen && one.closest('#bits') ? one.cells[0].textContent : null;
    })()"""
    )


def test_keys_in_the_table(shown):
    shown.run("choose(1), at('csv').focus()")
    # After the last button, the Tab key reaches only the rows of the list and the table.
    reached = [focused(shown, "Tab") for _ in range(4)]
    assert "SOF" in reached and reached[-1] is None
    shown.run("at('csv').focus()")
    before = None
    while not focused(shown, "Tab"):
        before = shown.run("document.activeElement.textContent")
    assert focused(shown, "ArrowUp") == "SOF"
    assert focused(shown, "ArrowDown") == "identifier"
    # The left and right arrow keys select another attempt, as everywhere else on the page.
    assert focused(shown, "ArrowRight") == "identifier" and shown.run("view.step") == 2
    assert focused(shown, "End") == "intermission"
    assert focused(shown, "ArrowDown") == "intermission"
    assert focused(shown, "Home") == "SOF" and shown.run("view.step") == 2
    assert focused(shown, "Escape") is None
    assert shown.run("document.activeElement.textContent") == before


@pytest.mark.parametrize("dark", [False, True])
def test_they_are_legible(shown, dark):
    shown.size(1200, dark=dark)
    rows_at(shown, 0)
    assert shown.run(WEAK) == []
