"""Checks the English of the documents, as far as a program can: short sentences, subjects that are nouns, and documents
that are not too long."""

import os
import re

import pytest

from serving import ROOT

# The maximum average of words in a sentence, for each document.
WORDS = {"README.md": 20, "docs/GUIDE.md": 20, "docs/PYTHON.md": 20, "docs/PROVED.md": 24, "docs/SECURITY.md": 20}
WORDS.update({"docs/RECORD.md": 20, "CONTRIBUTING.md": 20, "canbusd.1": 20, "canbusd-run.1": 20})
# The same maximum for the documents written for developers.
OTHERS = {"docs/ARCHITECTURE.md": 20, "docs/DECISIONS.md": 20, "CHANGELOG.md": 20, "docs/LIBRARIES-CHANGELOG.md": 20}
LINES = 3400
# Matches a sentence, or a part of one, whose subject is a clause.
HEADLESS = re.compile(r"(?:^|[:;] )(?:What|Who|Whoever|That of|Those of|Those that) (?!else)[a-z]")


def read(name):
    with open(os.path.join(ROOT, name), encoding="utf-8") as file:
        return file.read()


def paragraphs(text):
    """Returns the paragraphs and list items of a Markdown document or a manual page, without tables, blocks of code and
    headings."""
    if text.startswith(".TH"):
        text = re.sub(r"(?s:\.nf\n.*?\.fi\n)|^\.\\\W.*\n", "", text, flags=re.M)
        text = re.sub(r"^\.TP\n.*\n|^\.(?:TH|PP|IP|SH|br).*\n", "\n\n", text, flags=re.M)
        text = re.sub(r"\\f.|^\.[BI]R? ", "", text, flags=re.M).replace("\\-", "-")
    text = re.sub(r"^```.*?^```$", "", text, flags=re.S | re.M)
    text = re.sub(r"^(?:    |\||#|<!--).*$", "\n", text, flags=re.M)
    return [
        " ".join(part.split()) for part in re.split(r"\n\s*\n(?:- |\d+\. )?|\n\s*(?:- |\d+\. )", text) if part.split()
    ]


def sentences(text):
    """Returns the sentences in a document. A link counts as its link text."""
    text = re.sub(r"!?\[([^]]*)\]\([^)]*\)", r"\1", text).replace("**", "").replace(" ..", "")
    found = [one for part in paragraphs(text) for one in re.split(r"(?<=[.?!])[)\"]? (?=[^a-z])|: (?=`)", part)]
    return [one for one in found if len(one.split()) > 1]


def test_counting():
    """The paragraph has two sentences, and the list item has one. Headings, code, table rows and the addresses of
    images don't count.
    """
    text = "# What is it\n\n[One](x.md) two. Three `a b.c` four:\n\n    code\n\n- What it does, is that.\n\n| a | b |\n"
    assert sentences(text) == ["One two.", "Three `a b.c` four:", "What it does, is that."]
    assert [bool(HEADLESS.search(one)) for one in sentences(text)] == [False, False, True]
    assert sentences(".TH A 1\n.SH NAME\nOne\n\\fBtwo\\fR. Three four.\n.TP\n\\fBtag\\fR\nFive six.\n") == [
        "One two.",
        "Three four.",
        "Five six.",
    ]


@pytest.mark.parametrize("name, most", {**WORDS, **OTHERS}.items())
def test_sentences(name, most):
    """Sentences are short on average, and their subjects are nouns."""
    found = sentences(read(name))
    words = sum(len(one.split()) for one in found) / len(found)
    assert words <= most, f"{words:.1f} words a sentence, such as {max(found, key=len)!r}"
    assert not [one for one in found if HEADLESS.search(one) and not one.endswith("?")]


def test_lines():
    """The documents for users stay below the maximum number of lines."""
    assert sum(len(read(name).splitlines()) for name in WORDS) <= LINES
