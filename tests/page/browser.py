"""The tests of the page in a real browser: what it shows is compared with what the program prints for the same words.

    tests/page/browser.py PROGRAM, by a python3 that has selenium; tests/page/run calls it
    Status 3: no browser can be started here.
"""
import os
import random
import sys
import tempfile
import traceback

sys.dont_write_bytecode = True
# pylint: disable=wrong-import-position
sys.path.insert(0, os.path.dirname(os.path.abspath(__file__)))
from common import PATIENCE, Notes, Served, copy_examples, page_module, run_program
from selenium import webdriver
from selenium.common.exceptions import WebDriverException
from selenium.webdriver.chrome.service import Service
from selenium.webdriver.common.action_chains import ActionChains
from selenium.webdriver.common.by import By
from selenium.webdriver.common.keys import Keys
from selenium.webdriver.support.ui import Select, WebDriverWait

texts = page_module("texts")
OPTIONS = ("--headless=new", "--no-sandbox", "--disable-gpu", "--disable-dev-shm-usage", "--window-size=1200,1000")
EVIL = "<script>document.title='taken'</script>"
# Drops a file of this name and text onto the page.
DROP = """
const data = new DataTransfer();
data.items.add(new File([arguments[1]], arguments[0]));
document.body.dispatchEvent(new DragEvent("drop", { dataTransfer: data, bubbles: true, cancelable: true }));
"""


def start_browser():
    """A browser without a window."""
    options = webdriver.ChromeOptions()
    options.binary_location = "/usr/bin/chromium"
    for word in OPTIONS:
        options.add_argument(word)
    options.set_capability("goog:loggingPrefs", {"browser": "ALL"})
    try:
        return webdriver.Chrome(options=options, service=Service("/usr/bin/chromedriver"))
    except WebDriverException as fault:
        print(f"no browser can be started: {(fault.msg or '').partition(chr(10))[0]}")
        sys.exit(3)


class Page:
    """The page in a browser, beside the program that answers the same questions in a folder."""

    def __init__(self, browser, served, program, folder, notes):
        self.browser = browser
        self.served, self.program, self.folder, self.notes = served, program, folder, notes

    def open(self):
        """Opens the page, until it offers its examples."""
        self.browser.get(self.served.address)
        self.wait("the examples", lambda: len(self.all("#examples option")) > 3)

    def all(self, selector):
        """All elements of the page that a selector names."""
        return self.browser.find_elements(By.CSS_SELECTOR, selector)

    def one(self, selector):
        """The first of them."""
        return self.browser.find_element(By.CSS_SELECTOR, selector)

    def text(self, selector):
        """The text of an element, also where it is folded away; nothing where there is none."""
        return self.script("return document.querySelector(arguments[0])?.textContent ?? ''", selector)

    def script(self, text, *words):
        """What a script gives."""
        return self.browser.execute_script(text, *words)

    def wait(self, told, is_so):
        """Waits until something is so, and notes whether it came to be."""
        try:
            WebDriverWait(self.browser, PATIENCE, 0.05).until(lambda _: is_so())
            self.notes.so(told, True)
        except Exception as fault:
            raise AssertionError(f"waited in vain for {told}: {self.text('#answer')[:200]}") from fault

    def rows(self, caption):
        """The rows of the table with this caption."""
        return self.script(
            "return [...document.querySelectorAll('table')].filter((it) => it.caption.textContent === arguments[0])"
            ".flatMap((it) => [...it.tBodies[0].rows])"
            ".map((row) => [...row.cells].map((cell) => cell.textContent))", caption)

    def take_example(self, name, task):
        """Takes an example, until a task of it is shown."""
        Select(self.one("#examples")).select_by_value(name)
        self.wait(f"the table of {name}", lambda: self.has_line(name, task))

    def paste(self, text, wanted):
        """Pastes a sheet, until something of it is shown."""
        if not self.one("#paste").get_attribute("open"):
            self.one("#paste summary").click()
        self.script("document.getElementById('pasted').value = arguments[0]", text)
        self.one("#take-pasted").click()
        self.wait("what was pasted", lambda: self.has_line("pasted.csv", wanted))

    def has_line(self, name, wanted):
        """Whether the line of this name is shown, with a text in it."""
        return name in self.text("#line-shown .name") and wanted in self.text("#line-shown")

    def ask(self, kind, line="", **fields):
        """Asks a question about the line that is shown, until it is answered."""
        self.fill(kind, line, **fields)
        self.one("#ask-line button.main").click()
        self.wait(f"the answer to {kind} {fields}", self.is_done)

    def fill(self, kind, line="", **fields):
        """Fills in a question."""
        self.one(f"#ask-line input[value={kind}]").click()
        self.one(f"#ask-line input[name=line][value='{line}']").click()
        self.fill_fields("ask-line", fields)

    def fill_fields(self, form, fields):
        """Fills in fields of a form."""
        for name, value in fields.items():
            field = self.one(f"#{form} input[name={name}]:not([type=radio])")
            field.clear()
            field.send_keys(value)

    def is_done(self):
        """Whether no job runs, and an answer or a refusal is shown."""
        return self.script(
            "return document.getElementById('running').hidden && Boolean(document.querySelector('#answer-shown .big'))")

    def printed(self, *words):
        """What the program prints, as it is read."""
        code, said = run_program(self.program, words, self.folder)
        return texts.read_run(words[0], code, said)

    def same_balance(self, line, cert, *more):
        """Compares the stations, the plan and the check with what the program prints."""
        plan = self.printed("plan", line, cert, *more)
        self.notes.same(f"{line}: the plan", self.rows("Plan"), plan["plan"]["rows"])
        command = self.text(".commands pre").split("\n")
        checked = self.printed("check", line, cert, *more)["said"].strip()
        self.notes.same(f"{line}: the check", self.text("#answer .checked"), f"Checked: {checked}")
        self.wait(f"{line}: the picture", lambda: self.script(
            "return document.querySelector('#answer .picture img').naturalWidth > 0"))
        return command


def try_fewest(page):
    """The fewest stations of the fan: headline, picture, stations, plan, files and the command."""
    page.take_example("fan.csv", "Set base")
    rows = enumerate(tasks_of(page, "fan.csv"), 1)
    tasks = [[str(k), it["task"], it["time"], it["after"]] for k, it in rows]
    page.notes.same("the tasks", [it[:4] for it in page.rows("8 tasks")], tasks)
    page.ask("solve", cycle="55")
    read = page.printed("solve", "fan.csv", "cycle=55", "cert=fan.cert")
    page.notes.same("the fewest", page.text("#answer .big"), f"{read['optimal']['value']} stations, proved the fewest")
    page.notes.same("the idle time", page.text("#answer .idle"), f"Idle time {read['idle']['time']}")
    page.notes.same("the stations", [it[:2] for it in page.rows("Stations")],
        [[it["station"], it["tasks"]] for it in read["stations"]])
    command = page.same_balance("fan.csv", "fan.cert")
    page.notes.same("the command", command, ["./line solve fan.csv cycle=55 cert=fan.cert"])
    page.notes.same("the tooltips", len(page.all("#answer .box[title]")) >= 8, True)
    links = {it.get_attribute("download"): it.get_attribute("href") for it in page.all("#answer .files a")}
    page.notes.same("what can be taken along", list(links), ["fan-plan.csv", "fan.svg", "fan.cert"])
    plan = page.script("return fetch(arguments[0]).then((it) => it.text())", links["fan-plan.csv"])
    page.notes.same("the plan to take along", plan, page.printed("plan", "fan.csv", "fan.cert")["said"])


def tasks_of(page, name):
    """The tasks of a line as the program writes its table."""
    page.printed("convert", name, "table.csv", "to=csv")
    with open(f"{page.folder}/table.csv", "rb") as it:
        return texts.read_tasks(it.read())


def try_pairs(page):
    """A pair that is ticked by name, in the table."""
    page.one("button[data-task='1']").click()
    page.one("input[data-pair='1,3']").click()
    page.one("button[data-task='1']").click()
    page.notes.same("the partner", "Mount motor" in page.rows("8 tasks")[0][4], True)
    with open(f"{page.folder}/fan-apart.txt", "w", encoding="utf-8") as it:
        it.write("1,3\n-1,-1\n")
    page.ask("solve", cycle="55")
    read = page.printed("solve", "fan.csv", "cycle=55", "apart=fan-apart.txt", "cert=apart.cert")
    page.notes.same("the fewest with a pair", page.text("#answer .big"),
        f"{read['optimal']['value']} stations, proved the fewest")
    page.same_balance("fan.csv", "apart.cert", "apart=fan-apart.txt")


def try_other_questions(page):
    """The least cycle time, the least product, and what the program refuses."""
    page.take_example("fan.csv", "Set base")
    page.ask("cycle", stations="2")
    read = page.printed("cycle", "fan.csv", "stations=2", "cert=two.cert")
    page.notes.same("the least cycle time", page.text("#answer .big"),
        f"Cycle time {read['optimal']['value']}, proved the least")
    page.same_balance("fan.csv", "two.cert")
    page.ask("effic", least="2", most="4")
    read = page.printed("effic", "fan.csv", "least=2", "most=4", "cert=fan.product")
    wanted = "{stations} stations at cycle time {cycle}".format(**read["at"])
    wanted += f": product {read['optimal']['value']}, proved the least"
    page.notes.same("the least product", page.text("#answer .big"), wanted)
    checked = page.printed("effic-check", "fan.csv", "fan.product")["said"].strip()
    page.notes.same("the check of a product", page.text("#answer .checked"), f"Checked: {checked}")
    page.ask("solve", cycle="0")
    page.notes.same("a bad value", page.text("#ask-line .wrong"),
        f"cycle: {page.printed('balance', 'fan.csv', 'cycle=0')['fault']}")
    page.notes.same("the field of a bad value",
        page.one("#ask-line [name=cycle][aria-invalid]").get_attribute("value"), "0")
    page.ask("solve", cycle="20")
    read = page.printed("solve", "fan.csv", "cycle=20")["infeasible"]
    page.notes.same("a task that is too long", page.text("#answer .big"),
                    f"No number of stations is enough: {read['task']} takes {read['time']}")


def try_u_line(page):
    """The lamp as a U-line."""
    page.take_example("lamp.csv", "Clip")
    page.ask("solve", line="u", cycle="60")
    read = page.printed("solve", "lamp.csv", "cycle=60", "line=u", "cert=lamp.cert")
    page.notes.same("the fewest of a U-line", page.text("#answer .big"),
        f"{read['optimal']['value']} stations, proved the fewest")
    page.notes.so("the command of a U-line", "line=u" in page.same_balance("lamp.csv", "lamp.cert")[0])


def try_certificates(page):
    """Certificates that are chosen and dropped."""
    page.take_example("pump.csv", "Place housing")
    page.one("#check summary").click()
    page.one("#choose-certificate").send_keys(f"{page.folder}/pump.cert")
    checked = page.printed("check", "pump.csv", "pump.cert")["said"].strip()
    page.wait("the check of a certificate", lambda: checked in page.text("#answer .checked") and page.is_done())
    page.notes.same("what it shows", page.text("#answer .big"), "Accepted: 13 stations, the fewest")
    with open(f"{page.folder}/jackson.cert", encoding="utf-8") as it:
        page.script(DROP, "jackson.cert", it.read())
    refused = page.printed("check", "pump.csv", "jackson.cert")["said"].strip()
    page.wait("a certificate that is refused", lambda: refused in page.text("#answer .checked"))


def try_curve(page):
    """The curve of the pump, point by point, and a click on one."""
    page.take_example("pump.csv", "Place housing")
    page.ask("curve", **{"from": "49", "to": "54", "step": "1"})
    page.wait("the whole curve", lambda: page.text("#answer .big") == "6 of 6 cycle times answered")
    wanted = []
    for cycle in range(49, 55):
        read = page.printed("solve", "pump.csv", f"cycle={cycle}", "cert=point.cert")
        checked = page.printed("check", "pump.csv", "point.cert")["said"].strip().split(" units")[0]
        wanted.append([str(cycle), f"{read['optimal']['value']} stations, proved the fewest", checked])
    # With helpers the units of a certificate differ from run to run.
    found = [[*it[:2], it[2].split(" units")[0]] for it in page.rows("The curve")]
    page.notes.same("the curve", found, wanted)
    page.notes.same("the points that are proved", len(page.all("#answer .point.proved")), 6)
    ActionChains(page.browser).click(page.one("[data-cycle='50']")).perform()
    page.wait("the cycle time of a point",
        lambda: page.is_done() and page.text("#answer .big") == "13 stations, proved the fewest")
    page.take_example("pump.csv", "Place housing")
    page.one("#ask-line details summary").click()
    page.ask("curve", **{"from": "49", "to": "49", "step": "1", "units": "100", "helpers": "0"})
    page.wait("a point that isn't proved", lambda: len(page.all("#answer .point.range")) == 1)


def try_models(page):
    """The mix of bicycles: its balance, its sequence, and where help is needed."""
    page.take_example("bikes.csv", "cargo")
    page.fill_fields("ask-models", {"interval": "60", "length": "70", "cycle": "600"})
    page.one("#ask-models button.main").click()
    page.wait("the check of a sequence", lambda: "utility" in page.text("#answer h3 ~ .checked") and page.is_done())
    page.printed("combine", "bikes.csv", "bikes.in2")
    page.printed("solve", "bikes.in2", "cycle=600", "helpers=0", "cert=bikes.cert")
    headlines = [it.text for it in page.all("#answer .big")]
    page.notes.same("the balance of a mix", headlines[0], "9 stations, proved the fewest")
    total = page.text("#answer .stations p")
    page.notes.same("the utility work", total, f"Total utility work {headlines[1].split()[2].rstrip(',')}")
    page.notes.same("the units", len(page.all("#answer .units li")), 10)
    page.wait("the timeline", lambda: len(page.all("#answer .picture img")) == 2)


def try_faulty(page):
    """A faulty sheet: the fault stands beside the row that the program names."""
    sheet = "task,time,after\nWeld,3,Cut\nDrill,2,\n"
    with open(f"{page.folder}/pasted.csv", "w", encoding="utf-8") as it:
        it.write(sheet)
    read = page.printed("balance", "pasted.csv", "cycle=6")
    page.paste(sheet, read["fault"])
    found = [it.text for it in page.all("tr.fault td")]
    page.notes.same("the row of a fault", found, ["2", "Weld", "3", "Cut", read["fault"]])
    page.notes.same("nothing can be asked", page.one("#ask-line button.main").is_enabled(), False)


def try_markup(page):
    """A task whose name is markup is text everywhere."""
    page.paste(f"task,time,after\n{EVIL},3,\n<img src=x onerror=document.title='taken'>,2,{EVIL}\n", EVIL)
    page.ask("solve", cycle="5")
    page.notes.same("markup in the stations", EVIL in page.rows("Stations")[0][1], True)
    page.notes.same("markup in the plan", page.rows("Plan")[0][3], EVIL)
    page.notes.same("no markup in the page", len(page.all("section script, section img[src=x]")), 0)
    page.notes.same("nothing ran", page.browser.title, "line: balances of assembly lines")


def try_stop(page):
    """A line of 1,000 tasks, whose search is stopped by hand: the bounds of the quick balance stand."""
    chance = random.Random(76)
    rows = [f"{k},{chance.randint(200, 500)},{k - chance.randint(1, 40) if k > 41 else ''}" for k in range(1, 1001)]
    with open(f"{page.folder}/large.csv", "w", encoding="utf-8") as it:
        it.write("\n".join(["task,time,after", *rows, ""]))
    page.one("#choose").send_keys(f"{page.folder}/large.csv")
    page.wait("1,000 tasks", lambda: "1000 tasks" in page.text("#line-shown"))
    page.fill("solve", cycle="1000")
    page.one("#ask-line button.main").click()
    page.wait("the search", lambda: page.text("#doing") == "solve runs")
    page.one("#stop").click()
    page.wait("the end of a search that is stopped", page.is_done)
    read = page.printed("balance", "large.csv", "cycle=1000")
    found = page.text("#answer .big")
    wanted = f"Between {read['total_bound']['stations']} and {read['balance']['stations']} stations; stopped after "
    page.notes.so("the bounds of a search that is stopped", found.startswith(wanted) and found.endswith(" s by hand"),
        found)


def try_keyboard(page):
    """From the first sight to an answer by the keyboard alone."""
    page.open()
    tab_to(page, "examples")
    ActionChains(page.browser).send_keys("fan").perform()
    page.wait("an example by the keyboard", lambda: "fan.csv" in page.text("#line-shown .name"))
    tab_to(page, "cycle")
    ActionChains(page.browser).send_keys("55", Keys.ENTER).perform()
    page.wait("an answer by the keyboard",
        lambda: page.is_done() and page.text("#answer .big") == "3 stations, proved the fewest")


def tab_to(page, name):
    """Goes on by the tabulator until the element of this name has the focus."""
    for _ in range(60):
        ActionChains(page.browser).send_keys(Keys.TAB).perform()
        if page.script("return [document.activeElement.id, document.activeElement.name].includes(arguments[0])", name):
            return
    page.notes.so(f"the way to {name}", False, "not in 60 steps")


def try_windows(page):
    """The line is remembered; a window of 400 points; dark and light; nothing from elsewhere; no complaint."""
    page.open()
    page.wait("the line that was remembered", lambda: "fan.csv" in page.text("#line-shown .name"))
    page.ask("solve", cycle="55")
    page.browser.execute_cdp_cmd("Emulation.setDeviceMetricsOverride",
                                 {"width": 400, "height": 900, "deviceScaleFactor": 1, "mobile": False})
    widths = page.script("return ['scrollWidth', 'clientWidth'].map((it) => document.documentElement[it])")
    page.notes.so("a window of 400 points", widths[0] == widths[1] <= 400, widths)
    grounds = []
    for scheme in ("dark", "light"):
        page.browser.execute_cdp_cmd("Emulation.setEmulatedMedia",
            {"features": [{"name": "prefers-color-scheme", "value": scheme}]})
        grounds.append(page.script("return getComputedStyle(document.body).backgroundColor"))
    page.notes.same("dark and light", grounds, ["rgb(18, 24, 30)", "rgb(244, 246, 248)"])
    loaded = page.script("return performance.getEntriesByType('resource').map((it) => it.name)")
    page.notes.same("what came from elsewhere", [it for it in loaded if not it.startswith(page.served.address)], [])
    page.notes.same("complaints of the browser", page.browser.get_log("browser"), [])


TRIES = [
    try_fewest, try_pairs, try_other_questions, try_u_line, try_certificates, try_models, try_curve, try_faulty,
    try_markup, try_stop, try_keyboard, try_windows,
]


def main():
    notes, program, browser = Notes(), sys.argv[1], start_browser()
    with tempfile.TemporaryDirectory() as room, Served(program) as served:
        page = Page(browser, served, program, copy_examples(room), notes)
        try:
            page.open()
            for part in TRIES:
                try:
                    part(page)
                except Exception:  # pylint: disable=broad-except
                    notes.so(part.__name__, False, traceback.format_exc())
                    page.open()
        finally:
            page.browser.quit()
    print(f"passed {notes.passed} failed {notes.failed}")


main()
