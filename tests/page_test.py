"""Tests of the page that ./explain --html writes. Its scripts run under node and in Chromium where these are there. Run: python3 tests/page_test.py"""

import json
import pathlib
import shutil
import subprocess
import sys
import tempfile
import unicodedata
import unittest

sys.dont_write_bytecode = True
ROOT = pathlib.Path(__file__).resolve().parents[1]
sys.path[:0] = [str(ROOT / "tools"), str(ROOT / "tests" / "page")]

import browser
import messages
from explain import page, paper
from explain.fields import Explained
from explain.refusals import Refusal

SAMPLES = {path.read_bytes(): int(path.name[0]) for path in sorted((ROOT / "samples").glob("*.bin")) if path.stem not in messages.harbour.REFUSED}
SAMPLES[(ROOT / "tests" / "explain" / "engines.reply").read_bytes()] = 4
REPLY = (ROOT / "samples" / "4-engines.bin").read_bytes()
LIMIT_OF_ENGINE_2 = 238  # where the cell stands in the sample reply
MOST_SECONDS, MOST_BYTES = 3, 30_000_000  # to the first paint of a page of 4 MB, and of its file


def told_by_python(message, entries):
    """What fields.py tells of each field."""
    return [(field.name, field.where, field.value) for field in Explained(message, entries)]


def page_of(kind, message, entries, **more):
    return page.page(kind, "message.bin", message, messages.flat(entries), **more)


def refused_page(message, place, **more):
    """A page of a message refused at a place, with the fields that the sample reply has before it."""
    before = [entry for entry in messages.listed(4, REPLY) if entry[0] < place]
    refusal = paper.BAD_DECIMAL, place
    return page_of(4, message, before, refusal=refusal, words=("refused %d at %d: <b>the headline</b>" % refusal, "a sentence"), **more)


class Text(unittest.TestCase):
    def test_it_is_one_file_that_asks_no_network(self):
        text = page_of(4, REPLY, messages.listed(4, REPLY), footer=("the last line",))
        self.assertNotIn("{{", text)
        self.assertIn("428 bytes, 75 fields", text)
        self.assertIn("<p>the last line</p>", text)
        for word in ("http:", "https:", "src=", "href=", "url(", "@import", "fetch("):
            self.assertNotIn(word, text)

    def test_nothing_from_outside_is_read_as_html(self):
        evil = "</script><!-- <script>{{told}} &amp; \udcff"
        table = {"status": 0, "types": [9], "names": [evil[:-1].encode()], "rows": [[evil[:-1].encode()]]}
        kind, message = messages.reply([table])
        text = page.page(kind, evil, message, messages.flat(messages.listed(kind, message)), (4, 9), [evil, evil], [evil])
        plain = page.page(kind, "", message, messages.flat(messages.listed(kind, message)), (4, 9), ["", ""], [""])
        for mark in ("<script", "</script", "<!--"):
            self.assertEqual(text.count(mark), plain.count(mark))
        self.assertIn("&lt;/script&gt;&lt;!-- &lt;script&gt;{{told}} &amp;amp; \\udcff", text)
        text.encode("utf-8")

    def test_words_of_the_paper_cannot_end_the_script(self):
        self.assertEqual(page.script_json({"a": "</script><!--"}), '{"a":"\\u003c/script>\\u003c!--"}')

    def test_fields_that_leave_a_gap_are_not_shown_in_the_wrong_place(self):
        with self.assertRaises(ValueError):
            page_of(2, bytes(6), [(0, 4, 1, 0, 0, 0), (5, 1, 10, 0, 0, 0)])

    def test_ids_grow_with_the_number_of_templates(self):
        self.assertEqual([page.smallest_type(count) for count in (0, 256, 257, 65536, 65537)], ["B", "B", "H", "H", "I"])

    def test_a_value_that_breaks_its_rule(self):
        """Each cause has its number, its words are on the page, and none has the number that they had together."""
        numbers = set()
        for number, kind, message in messages.breaking():
            with self.assertRaises(messages.Refused) as stopped:
                messages.read(kind, message)
            no = stopped.exception
            refusal, words = (no.number, no.place), Refusal(kind, message, (no.number, no.place)).words
            text = page_of(kind, message, no.fields, refusal=refusal, words=words)
            self.assertEqual(no.number, number)
            self.assertIn('<div id="words"><p>refused %d at %d: ' % refusal, text)
            self.assertIn(page.paragraphs(words), text)
            self.assertNotIn("refused %d " % 7, text)
            numbers.add(number)
        self.assertEqual(numbers, set(range(paper.BAD_TEXT, paper.BAD_GEOGRAPHY + 1)))

    def test_a_message_of_nothing(self):
        self.assertIn("0 bytes, 0 fields up to the refusal", page_of(2, b"", [], refusal=(1, 0), words=("refused 1 at 0",)))


def settled(words):
    """Words with the characters escaped that are newer than Unicode 3.2: on which of them can be shown, Python and node needn't agree yet."""
    old = unicodedata.ucd_3_2_0
    return ["".join(c if old.category(c) != "Cn" else "\\u{%x}" % ord(c) for c in word) for word in words]


@unittest.skipUnless(shutil.which("node"), "there is no node")
class Told(unittest.TestCase):
    """The scripts tell every field as fields.py does."""

    def compare(self, cases):
        """Of cases (kind, message, entries)."""
        cases = list(cases)
        with tempfile.TemporaryDirectory() as folder:
            paths = [pathlib.Path(folder) / str(number) for number in range(len(cases))]
            for path, case in zip(paths, cases):
                path.write_text(page_of(*case), encoding="utf-8")
            done = subprocess.run(["node", str(ROOT / "tests" / "page" / "told.js"), *map(str, paths)], stdout=subprocess.PIPE, check=True)
        for told, (_, message, entries) in zip(json.loads(done.stdout), cases):
            self.assertEqual([tuple(field[:6]) for field in told], entries)
            for ours, theirs, entry in zip(told, told_by_python(message, entries), entries):
                self.assertEqual(settled(ours[6:]), settled(theirs), entry)

    def test_samples(self):
        self.compare((kind, message, messages.listed(kind, message)) for message, kind in SAMPLES.items())

    def test_values_at_their_edges(self):
        self.compare((kind, message, messages.listed(kind, message)) for kind, message in messages.edges())

    def test_the_fields_before_a_refusal(self):
        """Also where a column's type is read and its name is not. Of a table with many columns it is enough to stop now and then."""
        for message, kind in SAMPLES.items():
            entries = messages.listed(kind, message)
            self.compare((kind, message, entries[:count]) for count in range(0, len(entries), 1 + len(entries) // 100))

    def test_the_fields_up_to_a_fault(self):
        self.compare(messages.refused(500))

    def test_the_most_columns(self):
        """More than a byte counts, some of them without a name; then a table of few, whose columns are others."""
        names = [b"C%d" % column if column % 7 else b"" for column in range(messages.MOST_COLUMNS)]
        wide = {"status": 0, "types": [3 + column % 2 for column in range(len(names))], "names": names, "rows": [[column % 100 for column in range(len(names))]] * 2}
        kind, message = messages.reply([wide, {"status": 0, "types": [9], "names": [b"S"], "rows": [[b"x"]]}])
        self.compare([(kind, message, messages.listed(kind, message))])

    def test_more_than_256_templates(self):
        rows = [[b"x" * size] for size in range(1, 300)]
        kind, message = messages.reply([{"status": 0, "types": [9], "names": [b"S"], "rows": rows}])
        self.compare([(kind, message, messages.listed(kind, message))])


@unittest.skipUnless(browser.PROGRAM, "there is no Chromium")
class Seen(unittest.TestCase):
    """The page in a browser."""

    @classmethod
    def setUpClass(cls):
        cls.folder = tempfile.TemporaryDirectory()
        cls.path = pathlib.Path(cls.folder.name) / "page.html"
        cls.addClassCleanup(cls.folder.cleanup)
        try:
            cls.browser = browser.Browser()
        except OSError as problem:
            raise unittest.SkipTest("Chromium doesn't start: %s" % problem)
        cls.addClassCleanup(cls.browser.close)

    def setUp(self):
        self.browser.media()
        self.browser.resize(1400, 860)

    def tearDown(self):
        self.browser.settle()
        self.assertEqual(self.browser.problems, [])

    def open(self, text, fragment=""):
        self.path.write_text(text, encoding="utf-8")
        self.browser.open(self.path, fragment)
        self.browser.settle()

    def open_reply(self, fragment=""):
        self.open(page_of(4, REPLY, messages.listed(4, REPLY)), fragment)

    def paragraphs(self, name):
        return self.browser.run("[...document.querySelectorAll('#%s p')].map(it => it.textContent).join('\\n')" % name)

    def told(self):
        return self.paragraphs("told")

    def marked(self, mark):
        """The offsets of the spots of a mark."""
        return self.browser.run("[...document.querySelectorAll('#grid .%s')].map(spot => spot.at)" % mark)

    def middle(self, selector):
        return self.browser.run("(box => [box.x + box.width / 2, box.y + box.height / 2])(%s.getBoundingClientRect())" % selector)

    def spot(self, at):
        return self.middle("[...document.querySelectorAll('#grid .spot')].find(spot => spot.at === %d)" % at)

    def is_in_view(self, selector, pane):
        box = "document.querySelector('%s').getBoundingClientRect()"
        return self.browser.run("((it, pane) => it.top >= pane.top && it.bottom <= Math.min(pane.bottom, innerHeight))(%s, %s)" % (box % selector, box % pane))

    def assert_pinned(self, at):
        self.assertEqual(self.marked("at"), [at])
        self.assertTrue(self.is_in_view("#grid .at", "#grid"))
        self.assertEqual(self.browser.run("document.querySelectorAll('#list .shown').length"), 1)
        self.assertTrue(self.is_in_view("#list .shown", "#list"))

    def copied(self):
        return self.browser.run("""(() => {
            const event = new ClipboardEvent("copy", { clipboardData: new DataTransfer(), bubbles: true, cancelable: true });
            document.dispatchEvent(event);
            return event.clipboardData.getData("text/plain");
        })()""")

    def test_an_address_pins_its_byte(self):
        self.open_reply("#%d" % LIMIT_OF_ENGINE_2)
        self.assert_pinned(LIMIT_OF_ENGINE_2)
        self.assertIn("cell, table 0, row 1, column 3 THROTTLE_LIMIT (decimal)\n0.800000000000\nbytes 238 (0xee) to 253 (0xfd), 16 bytes: 00", self.told())
        self.assertEqual(self.marked("shown"), list(range(238, 254)))
        self.assertEqual(self.marked("declares"), [42, *range(79, 97)])
        self.browser.run("location.hash = '#14'")
        self.browser.settle()
        self.assertIn("1: success", self.told())
        for ignored in ("#428", "#x", "#-1", "#99999999999999999999"):
            self.browser.run("location.hash = '%s'" % ignored)
            self.browser.settle()
            self.assert_pinned(14)

    def test_pointer(self):
        self.open_reply()
        self.browser.mouse("mouseMoved", *self.spot(4))
        self.browser.settle()
        self.assertIn("version", self.told())
        self.browser.click(*self.spot(14))
        self.assert_pinned(14)
        self.assertEqual(self.browser.run("location.hash"), "#14")
        self.browser.click(*self.middle("[...document.querySelectorAll('#list .field')].find(row => row.at === 28)"))
        self.assert_pinned(28)
        self.assertEqual(self.browser.run("location.hash"), "#28")

    def test_keys(self):
        self.open_reply()
        steps = [("ArrowRight", 0), ("ArrowRight", 1), ("ArrowDown", 17), ("n", 19), ("n", 21), ("p", 19), ("End", 427), ("ArrowRight", 427), ("n", 427),
                 ("PageUp", None), ("Home", 0), ("p", 0), ("PageDown", None), ("ArrowUp", None), ("ArrowLeft", None)]
        for key, at in steps:
            self.browser.key(key)
            self.assert_pinned(self.marked("at")[0] if at is None else at)
        self.assertEqual(self.browser.run("location.hash"), "#%d" % self.marked("at")[0])
        self.browser.key("Escape")
        self.assertEqual((self.marked("at"), self.browser.run("location.hash")), ([], ""))

    def test_the_list_has_keys_too(self):
        self.open_reply("#13")
        self.browser.run("document.getElementById('list').focus()")
        for key, at in (("ArrowDown", 14), ("ArrowDown", 15), ("ArrowUp", 14), ("End", 427)):
            self.browser.key(key)
            self.assert_pinned(at)

    def test_copying(self):
        self.open_reply("#%d" % LIMIT_OF_ENGINE_2)
        self.assertEqual(self.copied(), REPLY[238:254].hex(" ") + "\n")
        self.browser.key("End", shift=True)
        self.browser.key("Home", shift=True)
        self.assertEqual(self.copied(), "".join(REPLY[at:min(at + 16, 239)].hex(" ") + "\n" for at in range(0, 239, 16)))
        self.browser.click(*self.spot(0))
        self.browser.click(*self.spot(20), shift=True)
        self.assertEqual(self.copied(), REPLY[:16].hex(" ") + "\n" + REPLY[16:21].hex(" ") + "\n")
        self.browser.mouse("mousePressed", *self.spot(3), button="left", buttons=1, clickCount=1)
        self.browser.mouse("mouseMoved", *self.spot(5), button="left", buttons=1)
        self.browser.mouse("mouseReleased", *self.spot(5), button="left", clickCount=1)
        self.assertEqual(self.copied(), REPLY[3:6].hex(" ") + "\n")

    def test_neighbours_differ(self):
        """In how light they are, so that those differ too whose hues are alike."""
        for scheme in ("light", "dark"):
            self.browser.media(prefers_color_scheme=scheme)
            self.open_reply()
            wrong = self.browser.run("""(() => {
                const lightness = spot => parseFloat(getComputedStyle(spot).backgroundColor.slice("oklch(".length));
                const step = (spot, before) => spot.field === before.field ? lightness(spot) === lightness(before)
                    : Math.abs(lightness(spot) - lightness(before)) > 0.05;
                return [...document.querySelectorAll("#grid .spot")].filter((spot, at, spots) => at > 0 && !step(spot, spots[at - 1])).length;
            })()""")
            self.assertEqual(wrong, 0)

    def test_the_field_shown_stands_out(self):
        self.open_reply()
        alike = self.browser.run("""[...document.querySelectorAll('#grid .spot')].filter(spot => {
            const looks = () => getComputedStyle(spot).backgroundColor;
            pin(-1);
            const before = looks();
            pin(spot.at);
            return looks() === before;
        }).length""")
        self.assertEqual(alike, 0)

    def test_lines_tell_fields_apart_where_colours_do_not(self):
        self.open_reply()
        for medium in ({"forced_colors": "active"}, {"medium": "print"}):
            self.browser.media(**medium)
            edges = self.browser.run("""[...document.querySelectorAll('#grid .spot')].filter(spot =>
                (parseFloat(getComputedStyle(spot).borderLeftWidth) > 0) !== spot.classList.contains('first')).length""")
            self.assertEqual(edges, 0)

    def test_the_layout_follows_the_window(self):
        self.open_reply("#%d" % LIMIT_OF_ENGINE_2)
        line = "document.querySelectorAll('#grid .line:not(.head)')[0].querySelectorAll('.spot').length"
        for width, bytes_in_line in ((1400, 16), (390, 8), (900, 16), (1400, 16)):
            self.browser.resize(width, 844)
            self.assertEqual(self.browser.run(line), bytes_in_line)
            self.assert_pinned(LIMIT_OF_ENGINE_2)
            self.assertLessEqual(self.browser.run("document.documentElement.scrollWidth"), width)
            self.assertLessEqual(self.browser.run("(pane => pane.scrollWidth - pane.clientWidth)(document.getElementById('grid'))"), 0)

    def test_a_refusal(self):
        for width in (1400, 390):
            self.browser.resize(width, 844)
            self.open(refused_page(REPLY, LIMIT_OF_ENGINE_2))
            self.assertEqual(self.marked("place"), [LIMIT_OF_ENGINE_2])
            self.assertTrue(self.is_in_view("#grid .place", "#grid"))
            self.assertEqual(self.paragraphs("words"), "refused 21 at 238: <b>the headline</b>\na sentence")
            self.assertIn("byte 238 (0xee) is hex 00, decimal 0", self.told())
            for key, text in (("ArrowLeft", '"starboard"'), ("n", "the place of the refusal"), ("ArrowRight", "byte 239"), ("p", "starboard")):
                self.browser.key(key)
                self.assertIn(text, self.told())
        self.browser.mouse("mouseMoved", *self.spot(254))
        self.browser.settle()
        self.assertIn("byte 254 (0xfe) is hex 40, decimal 64", self.told())

    def test_a_place_at_the_end(self):
        self.open(refused_page(REPLY[:254], 254))
        self.assertEqual(self.marked("place"), [254])
        self.assertIn("byte 254 (0xfe) is past the message's end", self.told())
        self.open(page_of(2, b"", [], refusal=(1, 0), words=("refused 1 at 0",)))
        self.assertEqual(self.marked("place"), [0])
        self.browser.key("ArrowRight")
        self.assertEqual(self.marked("at"), [0])

    def test_print_has_every_byte_of_a_small_message(self):
        self.open_reply()
        self.browser.run("dispatchEvent(new Event('beforeprint'))")
        printed = self.browser.run("[...document.querySelectorAll('#printed .spot')].map(spot => spot.textContent).join('')")
        self.assertEqual(printed, REPLY.hex())
        self.assertEqual(self.browser.run("document.querySelectorAll('#printed .field:not(.head)').length"), 75)

    def test_four_megabytes(self):
        message = messages.big()
        text = page_of(4, message, messages.listed(4, message))
        self.assertLess(len(text.encode()), MOST_BYTES)
        self.open(text, "#2000000")
        paint = self.browser.run("""new Promise(done =>
            new PerformanceObserver(list => done(list.getEntries()[0].startTime)).observe({ type: 'paint', buffered: true }))""")
        drawn = self.browser.run("performance.getEntriesByName('drawn')[0].startTime")
        self.assertLess(max(paint, drawn) / 1000, MOST_SECONDS)
        self.assert_pinned(2_000_000)
        self.assertLess(self.browser.run("document.querySelectorAll('*').length"), 3000)
        self.browser.key("End")
        self.assert_pinned(len(message) - 1)
        self.check_scrolling()
        self.browser.run("dispatchEvent(new Event('beforeprint'))")
        self.assertRegex(self.browser.run("document.querySelector('#printed .note').textContent"), r"^Printed are bytes .* those on the screen")

    def scrolled(self, how):
        """The list's first row in view after its pane is scrolled."""
        self.browser.run("listPane.scrollTop %s" % how)
        self.browser.settle()
        return self.browser.run("list.top")

    def check_scrolling(self):
        """The whole list is taller than its pane can be: jumps reach every part of it, and steps are rows."""
        self.assertGreater(self.browser.run("list.count * list.height"), self.browser.run("listPane.scrollHeight"))
        self.assertEqual(self.scrolled("= 0"), 0)
        self.assertAlmostEqual(self.scrolled("= listPane.scrollHeight / 2") / self.browser.run("list.count"), 0.5, 2)
        top = self.browser.run("list.top")
        for step in (1, 2, 3):
            self.assertAlmostEqual(self.scrolled("+= list.height"), top + step)
        self.assertAlmostEqual(self.scrolled("= listPane.scrollHeight"), self.browser.run("list.count - list.view / list.height"))


if __name__ == "__main__":
    unittest.main()
