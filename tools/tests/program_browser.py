"""The page that labels, in a headless Chromium: what it saves, shows and changes, and hostile input."""
import contextlib
import gzip
import os
import shutil
import tempfile
import time
import unittest
from pathlib import Path

import sdf
import trying
from browser import Browser
from program_web import needs_page

MARKUP = (
    "</script><script>document.title='ran'</script>",
    "<img src=x onerror=\"document.title='ran'\">",
    "<svg onload=\"document.title='ran'\">",
    "\\u003cscript\\u003edocument.title='ran'\\u003c/script\\u003e",
    "javascript:document.title='ran'",
    "]]>--><!--\u2028\"'`${document.title='ran'}",
)
# a record with a name, an element's symbol, and a data item
RECORD = """{name}
  {name}
{name}
  5  4  0  0  0  0  0  0  0  0999 V2000
    0.0000    0.0000    0.0000 C   0  0  0  0  0  0  0  0  0  0  0  0
    0.0000    1.0000    0.0000 F   0  0  0  0  0  0  0  0  0  0  0  0
    1.0000    0.0000    0.0000 Cl  0  0  0  0  0  0  0  0  0  0  0  0
    0.0000   -1.0000    0.0000 Br  0  0  0  0  0  0  0  0  0  0  0  0
   -1.0000    0.0000    0.0000 {symbol} 0  0  0  0  0  0  0  0  0  0  0  0
  1  2  1  0
  1  3  1  0
  1  4  1  1
  1  5  1  0
M  END
> <{name}>
{name}

$$$$
"""
SCROLLED = """(async () => {
  const wait = () => new Promise((go) => requestAnimationFrame(() => setTimeout(go, 0)));
  const cards = [...document.querySelectorAll('.card')].slice(0, 200);
  for (const card of cards) {
    card.scrollIntoView();
    for (let turn = 0; turn < 60 && !card.querySelector('.inside'); turn++) await wait();
  }
  scrollTo(0, 0);
  return cards.length === cards.filter((card) => card.querySelector('.inside')).length;
})()"""
DIGRAPH = """(async () => {
  const line = document.querySelector('.unit:has(.rank)'), card = line.closest('.card');
  line.focus();
  line.dispatchEvent(new KeyboardEvent('keydown', { key: 'Enter' }));
  for (let turn = 0; turn < 200 && !card.querySelector('.digraph .decisions'); turn++) {
    await new Promise((go) => setTimeout(go, 20));
  }
  return card.querySelector('.digraph svg .disc') !== null && card.querySelector('.digraph p.sense') !== null;
})()"""
LABELLED = "document.body.dataset.labelled"
STATE = "document.getElementById('state').textContent"
LETTERS = "[...document.querySelectorAll('#r%d .unit .letter')].map((badge) => badge.textContent)"
PRESSED = "document.querySelectorAll('#files button')[%d].click()"
SCRIPTS = "document.querySelectorAll('script').length"
STRAY = """document.querySelectorAll(
  'main img, main script, main [onload], main [onerror], main iframe, main a:not([href^="#"])').length"""
UNNAMED = """[...document.querySelectorAll('button, input, select, summary, [role=button], progress')]
  .filter((one) => one.checkVisibility() && !one.textContent.trim() && !one.getAttribute('aria-label') &&
    !one.labels?.length && !one.title).length"""
# colours as the style sheet names them, and the least contrast of each text on each ground: WCAG 2.2, 1.4.3
CONTRAST = """(() => {
  const channel = (value) => (value <= 0.04045 ? value / 12.92 : ((value + 0.055) / 1.055) ** 2.4);
  const light = (colour) => [1, 3, 5].map((at) => channel(parseInt(colour.slice(at, at + 2), 16) / 255))
    .reduce((sum, value, at) => sum + value * [0.2126, 0.7152, 0.0722][at], 0);
  const look = getComputedStyle(document.documentElement), of = (name) => look.getPropertyValue('--' + name).trim();
  const found = [];
  for (const text of ['ink', 'faint', 'link']) for (const ground of ['page', 'card', 'alarm']) {
    const [low, high] = [light(of(text)), light(of(ground))].sort((one, other) => one - other);
    found.push((high + 0.05) / (low + 0.05));
  }
  return Math.min(...found);
})()"""
ENDED_WORKER = """(() => {
  const Real = Worker;
  let isFirst = true;
  globalThis.Worker = class extends Real {
    constructor(address) {
      const broken = new Blob(['addEventListener("message", () => { throw Error("ended"); })']);
      super(isFirst ? URL.createObjectURL(broken) : address);
      isFirst = false;
    }
  };
})()"""


def record(name, symbol="H  "):
    return RECORD.format(name=name, symbol=symbol).encode()


@trying.needs("chromium")
@needs_page()
class Page(unittest.TestCase):
    @classmethod
    def setUpClass(cls):
        room = tempfile.TemporaryDirectory(ignore_cleanup_errors=True)
        cls.addClassCleanup(room.cleanup)
        cls.folder, cls.downloads = room.name, os.path.join(room.name, "downloads")
        os.mkdir(cls.downloads)
        cls.browser = Browser(shutil.which("chromium"), os.path.join(room.name, "profile"))
        cls.addClassCleanup(cls.browser.close)
        cls.asked = []
        cls.browser.note = cls.noting(cls.browser.note)
        cls.browser.ask("Browser.setDownloadBehavior", behavior="allow", downloadPath=cls.downloads)
        cls.browser.ask("Network.enable")

    @classmethod
    def noting(cls, note):
        """Notes addresses that the page asks for."""
        def noted(event):
            if event.get("method") == "Network.requestWillBeSent":
                cls.asked.append(event["params"]["request"]["url"])
            note(event)
        return noted

    def setUp(self):
        self.browser.faults.clear()
        self.open()

    def open(self, width=1280, dark=False):
        self.browser.look(width, dark=dark)
        self.browser.ask("Page.navigate", url=Path(trying.path("crates", "cip", "out", "cip.html")).as_uri())
        self.browser.wait("document.body && document.body.dataset.ready")

    def tearDown(self):
        self.assertEqual(self.browser.faults, [])
        outside = [url for url in self.asked if not url.startswith(("blob:", "data:", "file:"))]
        self.assertEqual(outside, [])

    def hand_over(self, text, name="given.sdf"):
        """What the page says of a file, once it has done with it."""
        path = os.path.join(self.folder, name)
        with open(path, "wb") as file:
            file.write(text)
        self.browser.value(f"delete {LABELLED}")
        self.browser.hand_over("#file", path)
        self.browser.wait(LABELLED, 120)
        return self.browser.value(STATE)

    def saved(self, number):
        """The name and the bytes of what a button saves."""
        for name in os.listdir(self.downloads):
            os.remove(os.path.join(self.downloads, name))
        self.browser.value(PRESSED % number)
        end, before = time.monotonic() + 60, (None, None)
        while time.monotonic() < end:
            names = [name for name in os.listdir(self.downloads) if not name.endswith(".crdownload") and name[0] != "."]
            with contextlib.suppress(FileNotFoundError, IndexError):
                now = names[0], os.path.getsize(os.path.join(self.downloads, names[0]))
                if now == before:
                    return names[0], Path(self.downloads, names[0]).read_bytes()
                before = now
            time.sleep(0.1)
        raise AssertionError("nothing was saved")

    # ---- What it makes

    def test_saved_files_are_what_the_program_and_the_table_give(self):
        for name in ("compounds.sdf", "axes.sdf", "groups.sdf"):
            text = trying.bytes_of("examples", name)
            for given in (text, gzip.compress(text)):
                self.hand_over(given, name if given is text else name + ".gz")
                labelled = trying.annotated(text)
                self.assertEqual(self.saved(0), (name.replace(".sdf", ".labelled.sdf"), labelled))
                table = trying.script_ran("tools/table", given=labelled).stdout
                self.assertEqual(self.saved(1), (name.replace(".sdf", ".labels.tsv"), table))
                self.assertEqual(gzip.decompress(self.saved(2)[1]), labelled)

    def test_many_records_are_labelled_in_order_and_the_first_are_shown(self):
        text = trying.bytes_of("examples", "compounds.sdf") * 120
        self.hand_over(text)
        self.assertEqual(self.browser.value("document.querySelectorAll('.card').length"), 5000)
        self.assertTrue(self.saved(0)[1] == trying.annotated(text))

    def test_a_molfile_is_labelled_that_is_pasted(self):
        molfile = trying.bytes_of("examples", "alanine.sdf").split(b"M  END")[0].decode() + "M  END\n"
        self.browser.value(f"""(() => {{
          const data = new DataTransfer();
          data.setData('text/plain', {molfile!r});
          document.body.dispatchEvent(new ClipboardEvent('paste', {{ clipboardData: data, bubbles: true }}));
        }})()""")
        self.browser.wait(LABELLED)
        self.assertTrue(self.browser.value(SCROLLED))
        self.assertEqual(self.browser.value(LETTERS % 1), ["S"])

    def test_cards_are_drawn_and_a_digraph_opens_by_the_keyboard(self):
        self.hand_over(trying.bytes_of("examples", "compounds.sdf"))
        self.assertTrue(self.browser.value(SCROLLED))
        self.assertTrue(self.browser.value(DIGRAPH))

    def test_settings_label_the_file_anew(self):
        self.hand_over(trying.bytes_of("examples", "menthol.sdf"))
        self.browser.value(f"delete {LABELLED}")
        self.browser.value("""(() => {
          const nodes = document.getElementById('nodes');
          nodes.value = '19';
          nodes.dispatchEvent(new Event('change'));
        })()""")
        self.browser.wait(LABELLED)
        text = trying.bytes_of("examples", "menthol.sdf")
        self.assertEqual(self.saved(0)[1], trying.annotated(text, "--nodes", "19"))

    def test_a_centre_is_set_and_a_record_mirrored_as_the_program_does(self):
        text = trying.bytes_of("examples", "menthol.sdf")
        for words, given in ((("set", "--record", "1", "--atom", "4", "--letter", "R"), "C4"), (("mirror",), "mirror")):
            self.hand_over(text)
            self.assertTrue(self.browser.value(SCROLLED))
            self.browser.value(f"""[...document.querySelectorAll('#r1 .changes button')]
              .find((one) => one.textContent.includes('{given}')).click()""")
            self.browser.wait(f"{STATE}.includes('is changed')")
            wanted = trying.ran(trying.program(), *words, given=trying.annotated(text)).stdout
            self.assertEqual(self.saved(0)[1], wanted)
            letters = [label.letter for label in sdf.answer(wanted).labels]
            self.assertEqual(self.browser.value(LETTERS % 1)[:len(letters)], letters)

    def test_a_run_is_stopped(self):
        path = os.path.join(self.folder, "long.sdf")
        with open(path, "wb") as file:
            file.write(trying.bytes_of("examples", "compounds.sdf") * 2000)
        self.browser.hand_over("#file", path)
        self.browser.wait("document.getElementById('bar').value > 0")
        self.browser.value("document.getElementById('stop').click()")
        self.browser.wait(LABELLED)
        self.assertIn("stopped", self.browser.value(STATE))

    # ---- What is hostile

    def test_markup_stays_text_wherever_it_is(self):
        scripts = self.browser.value(SCRIPTS)
        self.hand_over(b"".join(record(text) for text in MARKUP) + record("symbol", "<b>") + record("<b>", "<i>"),
                       "<img src=x onerror=alert(1)>.sdf")
        self.assertTrue(self.browser.value(SCROLLED))
        self.browser.value("document.querySelectorAll('details').forEach((details) => { details.open = true; })")
        names = self.browser.value(
            "[...document.querySelectorAll('.card h2')].map((head) => head.lastChild.textContent)")
        self.assertEqual(names, [*MARKUP, "symbol", "<b>"])
        values = self.browser.value("[...document.querySelectorAll('.card dd')].map((value) => value.textContent)")
        self.assertEqual(values, [*MARKUP, "symbol", "<b>"])
        self.assertEqual(self.browser.value("document.title"), "cip")
        self.assertEqual((self.browser.value(SCRIPTS), self.browser.value(STRAY)), (scripts, 0))

    def test_the_page_can_ask_for_nothing(self):
        tried = "fetch('https://example.org/').then(() => 'sent', (fault) => fault.name)"
        self.assertEqual(self.browser.value(tried), "TypeError")
        self.asked.clear()
        self.browser.faults.clear()

    def test_a_file_that_is_none_is_refused_in_words(self):
        for text, words in ((bytes(range(256)) * 100, "not an SDfile"), (b"", "no record"), (b" \n", "no record")):
            self.assertIn(words, self.hand_over(text))

    def test_a_record_that_ends_a_run_is_named_and_all_else_is_labelled(self):
        text = trying.bytes_of("examples", "alanine.sdf")
        long = b"b\n" * (9 << 20) + b"$$$$\n"
        self.hand_over(text + long + text)
        self.assertIn("Record 2 has no labels", self.browser.value("document.getElementById('faults').textContent"))
        alone = trying.annotated(text)
        self.assertTrue(self.saved(0)[1] == alone + long + alone)

    def test_a_worker_that_ends_is_started_anew(self):
        self.browser.value(ENDED_WORKER)
        text = trying.bytes_of("examples", "compounds.sdf")
        self.hand_over(text)
        self.assertEqual(self.saved(0)[1], trying.annotated(text))

    # ---- What it looks like

    def test_controls_have_names_and_texts_contrast(self):
        self.hand_over(trying.bytes_of("examples", "compounds.sdf"))
        self.assertTrue(self.browser.value(SCROLLED))
        self.assertEqual(self.browser.value(UNNAMED), 0)
        for dark in (False, True):
            self.browser.look(dark=dark)
            self.assertGreaterEqual(self.browser.value(CONTRAST), 4.5)

    def test_nothing_is_wider_than_a_phone(self):
        self.open(width=390)
        self.hand_over(trying.bytes_of("examples", "compounds.sdf"))
        self.assertTrue(self.browser.value(SCROLLED))
        self.assertLessEqual(self.browser.value("document.documentElement.scrollWidth"), 390)
