"""What a page of HTML says: its language, its title, its text, and its sections.

A page is read as a browser reads it, as far as the text needs that: an element whose end tag is missing ends where the next
one begins or its parent ends, and what is no HTML is passed over. No page stops the reader.
"""
import codecs
import re
from html.parser import HTMLParser
from typing import NamedTuple

# Elements that stand within a word or a line. Each other one ends the word before it.
INLINE = set("a abbr b bdi bdo big cite code data del dfn em font i ins kbd label mark q ruby s samp small span strike strong "
             "sub sup time tt u var wbr".split())
EMPTY = set("area base br col embed hr img input link meta param source track wbr".split())  # they have no end tag
HIDDEN = set("nav header footer script style template noscript iframe".split())  # what they hold is no text of the page
HEADINGS = {"h1", "h2", "h3", "h4", "h5", "h6"}
IN_HEAD = set("title meta link script style base noscript template".split())
HIDDEN_ROLES = {"navigation", "banner", "contentinfo", "search"}
BODY, ARTICLE, MAIN = 0, 1, 2  # where a text stands; that of the highest is the page's
REGIONS = {"article": ARTICLE, "main": MAIN}
PLAIN = ("html", "body", "main", "article")  # their ids name the whole page
DEEPEST = 512  # so many elements may be open, as in browsers; one that stands deeper has its text in them
# A paragraph ends where one of these begins.
BLOCKS = set("address article aside blockquote center details dialog dir div dl fieldset figcaption figure footer form h1 h2 h3 h4 "
             "h5 h6 header hgroup hr main menu nav ol p pre search section summary table ul".split())

# An element of the first column ends an open one of the second, up to one of the third.
LIST, TABLE = {"ul", "ol", "menu"}, {"table"}
ENDS = {
    "li": ({"li"}, LIST), "dt": ({"dt", "dd"}, {"dl"}), "dd": ({"dt", "dd"}, {"dl"}),
    "tr": ({"tr", "td", "th"}, TABLE), "td": ({"td", "th"}, TABLE), "th": ({"td", "th"}, TABLE),
    "thead": ({"thead", "tbody", "tr", "td", "th"}, TABLE), "tbody": ({"thead", "tbody", "tr", "td", "th"}, TABLE),
    "tfoot": ({"thead", "tbody", "tr", "td", "th"}, TABLE), "option": ({"option"}, {"select"}), "body": ({"head"}, set()),
}

# Encodings that a page may name; `charset=latin1` is windows-1252 in a browser.
ENCODINGS = set("utf-8 cp866 cp874 koi8-r koi8-u mac-roman mac-cyrillic gbk gb18030 gb2312 big5 euc_jp iso2022_jp shift_jis euc_kr "
                "cp1250 cp1251 cp1252 cp1253 cp1254 cp1255 cp1256 cp1257 cp1258".split())
ENCODINGS |= {f"iso8859-{number}" for number in range(2, 17)}
MARKS = [(codecs.BOM_UTF8, "utf-8"), (codecs.BOM_UTF16_LE, "utf-16-le"), (codecs.BOM_UTF16_BE, "utf-16-be")]
NAMED = re.compile(rb"""<meta[^>]+charset\s*=\s*["']?\s*([\w:.+-]+)|<\?xml[^>]+encoding\s*=\s*["']([\w:.+-]+)""", re.IGNORECASE)
WHERE_NAMED = 1024  # bytes from the beginning
BROKEN_OFF = re.compile(r"<[a-zA-Z/!?][^<>]*\Z")  # a tag at the end of a text, which browsers drop
SOFT = dict.fromkeys(map(ord, "\u00ad\u200b\u2060\ufeff"))  # characters that show nothing within a word


class Document(NamedTuple):
    """A document of the index: a page, or a section of it."""

    anchor: str  # the id of a section's heading, or an empty text
    title: str
    body: str


class Page(NamedTuple):
    language: str  # as <html lang> has it
    documents: list
    warnings: list


class Heading:
    """A heading that is being read."""

    def __init__(self, anchor, region, is_hidden):
        self.anchor, self.region, self.is_hidden = anchor, region, is_hidden
        self.texts, self.link = [], None  # where the texts of an open link begin

    def end_link(self):
        """A link of signs alone, such as ¶, leads to the heading itself and is no part of it."""
        if self.link is not None and not any(map(str.isalnum, "".join(self.texts[self.link:]))):
            del self.texts[self.link:]
        self.link = None


class Open(NamedTuple):
    """An element that has not ended."""

    tag: str
    anchor: str
    is_hidden: bool
    region: int  # where its text stands
    since: int  # how many texts came before it


class Part:
    """What stands in one region of the page up to a heading, or a heading, which begins a section if it has an anchor."""

    def __init__(self, region, texts, is_heading=False, anchor=""):
        self.region, self.texts, self.is_heading, self.anchor = region, texts, is_heading, anchor

    def text(self):
        return squeezed("".join(self.texts))


def squeezed(text):
    """The words of a text, with one blank between them."""
    return " ".join(text.translate(SOFT).split())


class Reader(HTMLParser):
    """Collects the parts of a page."""

    def __init__(self, is_xml):
        super().__init__(convert_charrefs=True)
        self.is_xml = is_xml  # whether `<a/>` is a whole element
        self.opened, self.parts, self.count = [], [], 0
        self.hidden = 0  # how many open elements hide their text
        self.language, self.title, self.first_hidden_heading = "", None, ""
        self.heading, self.is_left_out = None, False

    def region(self):
        return self.opened[-1].region if self.opened else BODY

    def handle_starttag(self, tag, attrs):
        values = dict(reversed([(name, value or "") for name, value in attrs]))
        if tag == "html":
            self.language = self.language or values.get("lang", values.get("xml:lang", "")).strip()
        if tag == "meta" and all(it.tag == "head" for it in self.opened if it.is_hidden):
            self.read_meta(values)
        self.end_what_ends_before(tag)
        if tag not in INLINE:
            self.add(" ")
        self.note_in_heading(tag, values)
        if tag in EMPTY:
            return
        if tag in HEADINGS:
            self.begin_heading(values.get("id", ""))
        if len(self.opened) < DEEPEST or tag in ("script", "style"):
            self.open(tag, values)

    def open(self, tag, values):
        role = values.get("role", "").strip().lower()
        is_hidden = (tag in HIDDEN or tag == "head" or "hidden" in values or values.get("data-search") == "ignore"
                     or role in HIDDEN_ROLES)
        region = max(self.region(), REGIONS.get(role if role == "main" else tag, BODY))
        if tag == "title":  # the first is the page's; one of a drawing is none
            is_hidden = self.title is not None or any(it.tag == "svg" for it in self.opened)
            self.title = self.title or ""
        self.hidden += is_hidden
        self.opened.append(Open(tag, values.get("id", ""), is_hidden, region, self.count))

    def parse_marked_section(self, i, report=1):
        """What begins with `<![` is a comment up to `>` in HTML; html.parser gives up at most of them."""
        return self.parse_bogus_comment(i, report)

    def handle_startendtag(self, tag, attrs):
        self.handle_starttag(tag, attrs)
        if tag not in EMPTY and (self.is_xml or any(it.tag in ("svg", "math") for it in self.opened)):
            self.handle_endtag(tag)

    def handle_endtag(self, tag):
        if tag in HEADINGS and self.heading:
            self.end_heading()
        if tag == "a" and self.heading:
            self.heading.end_link()
        for place in range(len(self.opened) - 1, -1, -1):
            if self.opened[place].tag == tag or tag in HEADINGS and self.opened[place].tag in HEADINGS:
                self.close_from(place)
                break
            if tag in INLINE and self.opened[place].tag not in INLINE:
                break
        if tag not in INLINE:
            self.add(" ")

    def handle_data(self, data):
        if self.opened and self.opened[-1].tag == "title" and not self.opened[-1].is_hidden:
            self.title += data
        elif data.strip() and self.opened and self.opened[-1].tag == "head":
            self.close_from(len(self.opened) - 1)  # a head that did not end
            self.add(data)
        else:
            self.add(data)

    def read_meta(self, values):
        """A page that search engines leave out, or that only leads to another one, is left out here as well."""
        name, said = values.get("name", "").lower(), values.get("content", "").lower()
        self.is_left_out |= name == "robots" and "noindex" in said
        self.is_left_out |= values.get("http-equiv", "").lower() == "refresh" and "url" in said

    def end_what_ends_before(self, tag):
        """Ends the open elements that end where this one begins."""
        if self.opened and self.opened[-1].tag == "head" and tag not in IN_HEAD:
            self.close_from(len(self.opened) - 1)
        ends, up_to = ENDS.get(tag, (set(), set()))
        if tag in BLOCKS:
            ends, up_to = {"p"}, None  # up to the first element that is not inline
        last = None
        for place in range(len(self.opened) - 1, -1, -1):
            it = self.opened[place].tag
            if it in ends:
                last = place
            elif it in (up_to or ()) or up_to is None and it not in INLINE:
                break
        if last is not None:
            self.close_from(last)

    def close_from(self, place):
        self.hidden -= sum(it.is_hidden for it in self.opened[place:])
        del self.opened[place:]

    def note_in_heading(self, tag, values):
        """The id of an element in a heading without one is the heading's."""
        if self.heading and tag not in HEADINGS:
            self.heading.anchor = self.heading.anchor or values.get("id", "") or (values.get("name", "") if tag == "a" else "")
            if tag == "a":
                self.heading.link = len(self.heading.texts)

    def begin_heading(self, anchor):
        """Its id is its own, or else that of an open element that begins with it."""
        if self.heading:
            self.end_heading()
        for it in reversed(self.opened):
            if anchor or it.since < self.count or it.tag in PLAIN:
                break
            anchor = it.anchor
        self.heading = Heading(anchor, self.region(), self.hidden > 0)

    def end_heading(self):
        heading, self.heading = self.heading, None
        part = Part(heading.region, heading.texts, True, heading.anchor)
        if not heading.is_hidden:
            self.parts.append(part)
        elif not self.first_hidden_heading:
            self.first_hidden_heading = part.text()
        self.count += 1

    def add(self, text):
        if self.heading:
            self.heading.texts.append(text)
        elif not self.hidden:
            last = self.parts[-1] if self.parts else None
            if last is None or last.is_heading or last.region != self.region():
                last = Part(self.region(), [])
                self.parts.append(last)
            last.texts.append(text)
        self.count += not self.hidden and not text.isspace()


def decoded(data):
    """The text of a page's bytes, and what is wrong with its encoding, or an empty text."""
    for mark, name in MARKS:
        if data.startswith(mark):
            return data[len(mark):].decode(name, "replace"), ""
    found = NAMED.search(data[:WHERE_NAMED])
    label = (found[1] or found[2]).decode("ascii") if found else ""
    try:
        name = codecs.lookup(label or "utf-8").name
    except LookupError:
        name = "none"
    if name in ("iso8859-1", "ascii"):
        name = "cp1252"
    if name.startswith("utf-16"):
        name = "utf-8"  # a page whose bytes can be read so far is not UTF-16
    if name not in ENCODINGS:
        return data.decode("utf-8", "replace"), f"the encoding {label} is not known here: it is read as UTF-8"
    try:
        return data.decode(name), ""
    except UnicodeDecodeError:
        if label:
            return data.decode(name, "replace"), f"it has bytes that {label} does not have"
        return data.decode("cp1252", "replace"), "it names no encoding, and is not UTF-8: it is read as windows-1252"


def parts_of(text, address):
    """The reader after the whole text, and what it could not read, or an empty text."""
    reader, wrong = Reader(address.lower().endswith(".xhtml") or text.startswith("<?xml")), ""
    try:
        reader.feed(BROKEN_OFF.sub("", text))
        reader.close()
    except (AssertionError, ValueError) as error:  # html.parser knows more of these in some versions
        wrong = f"it is read up to line {reader.getpos()[0]}: {error}"
    if reader.heading:
        reader.end_heading()
    return reader, wrong


def sections_of(parts, title):
    """A document for each heading with an id, and before them one for the text that stands before the first."""
    texts, titles = {"": []}, {"": title}
    anchor = ""
    for part in parts:
        text = part.text()
        if part.is_heading and part.anchor:
            anchor = part.anchor
            texts.setdefault(anchor, [])
            titles.setdefault(anchor, title if text in ("", title) else f"{title} › {text}")
        else:
            texts[anchor].append(text)
    documents = [Document(it, titles[it], squeezed(" ".join(texts[it]))) for it in texts]
    return [it for it in documents if it.anchor or it.body] or documents


def page_of(data, address, in_sections=False):
    """The page of these bytes. One that is left out has no documents. `address` is its title if it has no other."""
    text, wrong_encoding = decoded(data)
    reader, wrong = parts_of(text, address)
    warnings = [it for it in (wrong_encoding, wrong) if it]
    if reader.is_left_out:
        return Page(reader.language, [], warnings)
    least = max((part.region for part in reader.parts if part.text()), default=BODY)
    parts = [part for part in reader.parts if part.region >= least]
    headings = (part.text() for part in parts if part.is_heading and part.text())
    title = squeezed(reader.title or "") or next(headings, "") or reader.first_hidden_heading or address
    if in_sections:
        return Page(reader.language, sections_of(parts, title), warnings)
    body = squeezed(" ".join(part.text() for part in parts))
    return Page(reader.language, [Document("", title, body)], warnings)
