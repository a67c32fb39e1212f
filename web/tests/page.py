"""The demo page in headless Chromium, and what a test may do with it: what a visitor does."""
import importlib.machinery
import importlib.util
import os
import shutil
import threading
import time

from selenium import webdriver
from selenium.webdriver.chrome.options import Options
from selenium.webdriver.chrome.service import Service
from selenium.webdriver.common.by import By
from selenium.webdriver.common.keys import Keys
from selenium.webdriver.support.ui import Select, WebDriverWait

WEB = os.path.dirname(os.path.dirname(os.path.abspath(__file__)))
LAST = """const l = document.getElementById('trace').lastElementChild;
return l && { answer: l.dataset.answer === '–' ? -1 : +l.dataset.answer, place: +l.dataset.place, why: l.querySelector('.why')?.textContent ?? '',
  raw: [...l.querySelectorAll('[data-raw]')].map((e) => e.dataset.raw) }"""


def serve():
    loader = importlib.machinery.SourceFileLoader('serve', os.path.join(WEB, 'serve'))
    module = importlib.util.module_from_spec(importlib.util.spec_from_loader('serve', loader))
    loader.exec_module(module)
    serving = module.server(0)
    threading.Thread(target=serving.serve_forever, daemon=True).start()
    return f'http://127.0.0.1:{serving.server_port}/demo/'


def chromium():
    options = Options()
    for word in ('--headless=new', '--window-size=1440,1040', '--force-device-scale-factor=1', '--disable-dev-shm-usage', '--hide-scrollbars', '--disable-gpu'):
        options.add_argument(word)
    if os.getuid() == 0:
        options.add_argument('--no-sandbox')
    options.set_capability('goog:loggingPrefs', {'browser': 'ALL'})
    browser = webdriver.Chrome(service=Service(shutil.which('chromedriver')), options=options)
    browser.set_script_timeout(300)
    return browser


class Page:
    def __init__(self, shots=None):
        self.address, self.browser, self.shots = serve(), chromium(), shots
        self.passed, self.failed, self.words = 0, 0, {}
        self.open()

    # ---- checks
    def check(self, name, got, want):
        if got == want:
            self.passed += 1
        else:
            self.failed += 1
            print(f'FAILED {name}:\n  got  {str(got)[:600]}\n  want {str(want)[:600]}')

    def shot(self, name):
        if self.shots:
            time.sleep(0.4)
            self.browser.save_screenshot(os.path.join(self.shots, name + '.png'))

    # ---- what a visitor does
    def open(self, fragment=''):
        self.browser.get('about:blank')
        self.browser.get(self.address + fragment)
        WebDriverWait(self.browser, 30).until(lambda b: b.execute_script('return document.body.dataset.ready'))

    def at(self, name):
        return self.browser.find_element(By.ID, name)

    def css(self, path):
        return self.browser.find_element(By.CSS_SELECTOR, path)

    def script(self, text, *words):
        return self.browser.execute_script(text, *words)

    def unfold(self, name):
        """Opens the tab and the fold that a control stands in."""
        closest = "return document.getElementById(arguments[0]).closest(arguments[1])"
        panel = self.script(closest, name, '[role=tabpanel]')
        if panel and not panel.is_displayed():
            self.at(panel.get_attribute('id').replace('panel-', 'tab-')).click()
        fold = self.script(closest + "?.querySelector('summary')", name, 'details:not([open])')
        if fold:
            fold.click()

    def press(self, name):
        self.unfold(name)
        self.at(name).click()
        return self.last()

    def type(self, name, text):
        self.unfold(name)
        field = self.at(name)
        field.send_keys(Keys.CONTROL, 'a')
        field.send_keys(Keys.DELETE)
        field.send_keys(str(text))

    def paste(self, name, text):
        self.unfold(name)
        self.script("const e = document.getElementById(arguments[0]); e.value = arguments[1]; "
                    "e.dispatchEvent(new Event('input', { bubbles: true }))", name, text)

    def tick(self, name, on):
        self.unfold(name)
        if self.at(name).is_selected() != on:
            self.at(name).click()

    def event(self, n):
        self.css(f'#events [data-event="{n}"]').click()
        return self.last()

    def sample(self, i):
        Select(self.at('sample')).select_by_index(i)

    def chart(self, text, start=True):
        """Pastes a chart, tabs written as spaces, and reads it; the answer and its place as the page shows them."""
        self.paste('text', text.replace(' ', '\t'))
        self.press('read' if start else 'readonly')
        return self.verdict()

    # ---- what a visitor sees
    def verdict(self):
        number, place, text = self.script("const v = document.getElementById('verdict'); return [+v.dataset.answer, +v.dataset.place, v.textContent]")
        self.words.setdefault(number, text if number else 'done')
        return [number, place]

    def last(self):
        seen = self.script(LAST)
        if seen and seen['answer'] >= 0:
            self.words.setdefault(seen['answer'], seen['why'] or 'done')
        return seen

    def active(self):
        return sorted(self.script("return [...document.querySelectorAll('[data-active=true]')].map((e) => +e.dataset.state)"))

    def ran(self):
        return self.script("return [...document.querySelectorAll('.block.ran')].map((e) => e.dataset.block)")

    def fired(self):
        return sorted(self.script("return [...document.querySelectorAll('.arrow.fired')].map((e) => +e.dataset.transition)"))

    def agreement(self):
        return self.at('agree').get_attribute('data-verdict')

    def console(self):
        return [line['message'] for line in self.browser.get_log('browser')]
