#!/usr/bin/env python3
"""The demo page in headless Chromium: browser.py [FOLDER-FOR-SCREENSHOTS]. The last line is `N passed, M failed`.
Needs chromium, chromium-driver and python3-selenium. Clicks what a visitor clicks and compares what the page shows with the scope document."""
import json
import os
import random
import sys
import time

from selenium.webdriver.common.by import By
from selenium.webdriver.common.keys import Keys

from page import Page

page = Page(sys.argv[1] if len(sys.argv) > 1 else None)
check, press, event, chart, last = page.check, page.press, page.event, page.chart, page.last
K = """S 0 - o 1\nS 1 0 b -\nS 2 0 o 3\nS 3 2 b -\nS 4 2 b -\nV 0 -100 100 0\nE 2\nT 0 1 1 - - - h2\nT 1 3 2 - - - 4\nT 2 2 1 - - - 1
A e 4 o 7 -\nA x 2 a 0 60\nA d 2 o 9 -\n"""
RUNS = [(1, ['1 0 0', '2 1 0', '3 2 0', '6 9 0', '3 3 0'], [0, 2, 3]), (2, ['1 1 0', '2 3 0', '3 4 0', '6 7 0'], [0, 2, 4]),
        (1, ['1 2 0', '2 4 0', '2 2 0', '4 0 60', '3 1 0'], [0, 1]), (1, ['1 0 0', '2 1 0', '3 2 0', '3 4 0', '6 7 0'], [0, 2, 4]),
        (1, ['1 2 0', '2 4 0', '2 2 0', '4 0 100', '3 1 0'], [0, 1])]
TWO = 'S 0 - o 1\nS 1 0 b -\nE 1\nT 0 1 1 - - - -\n'
DEEP = (''.join(f'S {i} {i - 1 if i else "-"} o {i + 1}\n' for i in range(63)) + 'S 63 62 b -\nV 0 -1000000000 1000000000 0\nE 32\n'
        + ''.join(f'T {i} {1 + i % 63} {1 + i % 32} - - - {"h" + str(1 + i % 62) if i % 2 else 1 + (i * 7) % 63}\n' for i in range(128))
        + ''.join(f'A {"ex"[i % 2]} {i % 64} a 0 1\n' for i in range(256)))


def panel():
    page.shot('01-panel-at-start')
    event(1), event(3), page.type('argument', 250), event(4), page.type('argument', 2000)
    check('panel: zoom held, null step', event(4)['raw'], ['1 5 0', '4 0 800', '1 7 0', '2 9 0', '3 10 0', '6 12 0'])
    check('panel: fired arrows', page.fired(), [5, 7])
    page.shot('02-panel-zoomed')
    press('tab-plan')
    check('panel: blocks that ran', page.ran(), ['7', '5'])
    page.shot('03-panel-plan')
    press('tab-text'), page.type('argument', 0), event(2)
    check('panel: restored', event(1)['raw'], ['1 0 0', '2 1 0', '3 2 0', '3 3 0', '3 4 0', '3 6 0', '3 8 0', '6 10 0', '3 10 0', '6 12 0'])
    check('panel: chart and plan agree', page.agreement(), 'alike')


def k():
    """Chart K typed in by keys (the space bar writes the tabs), then its five runs clicked."""
    page.type('labels', ''), page.type('text', K)
    press('read')
    check('K read', page.verdict(), [0, 0])
    check('K start', last()['raw'], ['3 0 0', '3 1 0'])
    check('K start block ran', page.ran(), ['start'])
    for i, (e, raw, lit) in enumerate(RUNS):
        check(f'K event {i + 1}', event(e)['raw'], raw)
        check(f'K lit {i + 1}', page.active(), lit)
        check(f'K block {i + 1}', page.ran(), [raw[0].split()[1]])
        if i == 3:
            page.shot('04-K')
    check('K variable', page.css('[data-variable="0"]').text, '100')
    check('K slot of 2', page.css('[data-slot="2"]').get_attribute('data-held'), '4')
    check('K: chart and plan agree', (page.agreement(), page.at('agree').get_attribute('data-calls')), ('alike', '11'))
    press('tab-plan')
    check('K: counts of the plan', page.at('counts').text, '5 states · 1 variable · 2 events · 3 heads · 39 instructions · 195 numbers')
    page.shot('05-K-plan')
    press('tab-text')


def refusals_of_texts():
    check('1: a wrong line', chart('S 0 - o 1\nS 1 0 b -\nX\n'), [1, 3])
    check('1: the line is marked', page.css('#gutter .bad').text, '3')
    page.shot('06-refused-line')
    check('1: no E line', chart('S 0 - o 1\nS 1 0 b -\n'), [1, 3])
    check('2: beyond', chart('S 0 - o 1\nS 1 0 b -\nV 0 0 1000000001 0\nE 0\n'), [2, 3])
    rules = {1: 'S 0 - b -\nE 0\n', 2: 'S 0 - o 1\nS 1 0 o 2\nS 2 1 b -\nS 3 0 b -\nS 4 1 b -\nE 0\n', 3: 'S 0 - o 1\nS 1 0 a -\nE 0\n',
             4: 'S 0 - o 0\nS 1 0 b -\nE 0\n', 5: 'S 0 - o 1\nS 1 0 b -\nV 0 5 1 5\nE 0\n', 6: 'S 0 - o 1\nS 1 0 b -\nE 0\nT 0 1 1 - - - 1\n',
             7: 'S 0 - o 1\nS 1 0 b -\nE 0\nA e 9 o 1 -\n'}
    for rule, text in rules.items():
        check(f'3: rule {rule}', chart(text), [3, rule])
        check(f'3: rule {rule} in words', f'rule R{rule} fails: ' in page.at('verdict').text, True)
    page.shot('07-refused-rule')


def refusals_of_calls():
    check('7: chart read', chart(TWO, start=False), [0, 0])
    for name in ('run', 'discard', 'post'):
        check(f'7: {name}', press(name)['answer'], 7)
    press('start')
    for name in ('run', 'discard'):
        check(f'8: {name}', press(name)['answer'], 8)
    for n, a in ((0, 0), (2, 0), (-1, 0), (1, 1000000001), (1, -1000000001), (2147483647, -2147483648)):
        page.type('number', n), page.type('argument', a)
        check(f'10: event {n}, argument {a}', press('post')['answer'], 10)
    for n, a in (('1.5', 0), ('1e12', 0), (1, '1e300'), ('', 0)):
        page.type('number', n), page.type('argument', a)
        check(f'no integer: event {n}, argument {a}', (press('post')['answer'], 'whole number' in last()['why']), (-1, True))
    page.type('number', 1), page.type('argument', -1000000000)
    for i in range(16):
        check(f'post {i}', press('post')['answer'], 0)
    check('9: the 17th', press('post')['answer'], 9)
    page.shot('08-queue-full')
    page.type('argument', 0)
    check('refusals: chart and plan agree', page.agreement(), 'alike')


def limits():
    page.tick('keep', True)
    chart('S 0 - o 1\nS 1 0 o 2\nS 2 1 b -\nE 1\n')
    check("6: another chart's state", press('run')['answer'] in (0, 6), True)
    check('6: seen by the chart', page.agreement(), 'foreign' if last()['answer'] == 0 else 'alike')
    page.tick('keep', False)
    page.sample(1)
    page.type('room', 14)
    press('start')
    check('11: 14 numbers', event(1)['answer'], 11)
    page.type('room', 15)
    check('15 numbers are enough', (press('run')['answer'], len(last()['raw'])), (0, 5))
    page.type('room', 3000), page.type('textroom', 10)
    check('13', press('write')['answer'], 13)
    page.type('textroom', 32768)
    before = page.at('text').get_attribute('value')
    check('written back the same', (press('write')['answer'], page.at('text').get_attribute('value')), (0, before))
    page.type('planroom', 194)
    check('4', press('compile')['answer'], 4)
    page.type('planroom', 195)
    check('195 numbers are enough', press('compile')['answer'], 0)
    press('ownplan')
    check('the own plan is one', press('examine')['answer'], 0)
    page.shot('09-plan-numbers')
    page.type('plannumbers', '1 2 3')
    check('5', press('examine')['answer'], 5)
    page.sample(2)
    check('12: never at rest', event(1)['answer'], 12)
    page.sample(3)
    for _ in range(20):
        seen = event(1)['answer']
        if seen:
            break
    check('9: at a send', seen, 9)


def saved():
    page.sample(1)
    event(1), event(2)
    press('save')
    text = page.at('saved').get_attribute('value')
    check('saved: 178 numbers', len(text.split()), 178)
    after = event(1)['raw']
    press('restore')
    check('restored: lit', page.active(), [0, 2, 4])
    check('restored: goes on the same', event(1)['raw'], after)
    check('restored: chart and plan agree', page.agreement(), 'alike')
    damaged = text.split()
    damaged[1] = '0'
    page.paste('saved', ' '.join(damaged)), press('restore')
    check('6: damaged', press('run')['answer'], 6)
    page.shot('10-foreign')
    page.paste('saved', text.replace('1', '2', 1)), press('restore')
    check('6: a mark that is none', press('run')['answer'], 6)
    for wrong in ('1 2 3', 'x', '1e5', text + ' 0'):
        page.paste('saved', wrong)
        check(f'no saved widget: {wrong[:9]}', press('restore')['answer'], -1)


def links():
    page.sample(0)
    event(1), event(3), page.type('argument', 300), event(4)
    lit, value = page.active(), page.css('[data-variable="0"]').text
    page.type('argument', 0)
    press('share')
    link = page.at('link').get_attribute('value')
    page.shot('11-share')
    page.open('#' + link.split('#')[1])
    check('link: same state', (page.active(), page.css('[data-variable="0"]').text), (lit, value))
    check('link: own chart', page.at('sample').get_attribute('value'), 'own')
    for bad in ('#c=!!!', '#c=_w', '#c=UyAw&e=zz', '#c=UyAw&e=p1.99999999999999', '#c=' + 'Cg' * 300000, '#nothing'):
        page.open(bad)
        check(f'bad link {bad[:40]} is survived', page.script('return document.body.dataset.ready'), 'yes')
    check('link without a chart: the first sample', page.active(), [0, 1])


def keys():
    page.sample(1)
    page.at('start').send_keys('1')
    check('key 1 sends event 1', last()['raw'][0], '1 0 0')
    page.browser.switch_to.active_element.send_keys('2')
    check('key 2 sends event 2', last()['raw'][0], '1 1 0')
    page.at('argument').send_keys('1')
    check('a digit in a field sends nothing', last()['raw'][0], '1 1 0')
    page.type('argument', 0)
    page.at('tab-text').send_keys(Keys.ARROW_RIGHT)
    check('arrow: the plan', page.at('panel-plan').is_displayed(), True)
    page.browser.switch_to.active_element.send_keys(Keys.ARROW_LEFT)
    check('arrow: the text', page.at('panel-text').is_displayed(), True)
    box = page.script("return document.querySelector('#diagram svg').getAttribute('viewBox')")
    page.css('#diagram svg').send_keys('+')
    check('+ zooms', page.script("return document.querySelector('#diagram svg').getAttribute('viewBox')") != box, True)
    page.css('#diagram svg').send_keys('0')
    check('0 shows all', page.script("return document.querySelector('#diagram svg').getAttribute('viewBox')"), box)
    page.at('sample').send_keys(Keys.NULL)
    reached, first = set(), page.browser.switch_to.active_element
    for _ in range(60):
        page.browser.switch_to.active_element.send_keys(Keys.TAB)
        here = page.browser.switch_to.active_element
        reached.add(here.get_attribute('id') or here.get_attribute('data-event') or here.tag_name)
    want = {'text', 'read', 'readonly', 'argument', 'number', 'post', 'run', 'discard', 'start', 'atonce', 'log', 'clear', 'sample', 'share', '1', '2', 'svg'}
    check('Tab reaches everything', want - reached, set())


FAINT = """const light = (c) => { const v = c.map((x) => { x /= 255; return x <= .03928 ? x / 12.92 : ((x + .055) / 1.055) ** 2.4 });
  return .2126 * v[0] + .7152 * v[1] + .0722 * v[2] };
const rgb = (s) => s.match(/[\\d.]+/g).map(Number), behind = (e) => { for (; e; e = e.parentElement) {
  const c = rgb(getComputedStyle(e).backgroundColor); if (c.length < 4 || c[3] > .99) return c } return [255, 255, 255] };
return [...document.querySelectorAll('header *, main *')].filter((e) => !(e instanceof SVGElement) && e.checkVisibility()
  && [...e.childNodes].some((n) => n.nodeType === 3 && n.data.trim())).map((e) => {
  const a = light(rgb(getComputedStyle(e).color)), b = light(behind(e));
  return [(Math.max(a, b) + .05) / (Math.min(a, b) + .05), e.tagName + '.' + e.className, e.textContent.slice(0, 20)] }).filter(([r]) => r < 4.5)"""


def names():
    """A reader for the blind: each control has a name, the trace is a live log, the diagram says what is active."""
    for fold in page.browser.find_elements(By.CSS_SELECTOR, 'details:not(.block):not([open]) > summary'):
        if fold.is_displayed():
            fold.click()
    nameless = [e.get_attribute('outerHTML')[:90] for e in page.browser.find_elements(By.CSS_SELECTOR, 'button, input, select, textarea, [role=img]')
                if e.is_displayed() and not e.accessible_name.strip()]
    check('each control has a name', nameless, [])
    check('no text is too faint to read', page.script(FAINT), [])
    trace = page.at('log')
    check('the trace is a live log', (trace.aria_role, trace.get_attribute('aria-live'), trace.accessible_name != ''), ('log', 'polite', True))
    page.sample(0)
    event(1)
    check('an event button says its words', page.css('#events [data-event="1"]').accessible_name, 'event 1: pointer enters')
    check('the diagram says what is active', page.css('#diagram svg').accessible_name.startswith('State diagram. Active: panel, awake'), True)
    check('the words of the active states', page.at('active').text, 'In: hidden, whole')


def hostile():
    random.seed(7)
    texts = {'random bytes': ''.join(chr(random.randrange(32, 127)) for _ in range(32768)), 'tabs': '\t' * 32768, 'lines': '\n' * 32768,
             'one digit string': 'S\t' + '9' * 32766, 'minus signs': '-' * 32768, 'nul': '\0' * 32768, 'four-byte letters': '\U0001F480' * 8192,
             'markup': ('<img src=x onerror=alert(1)>' * 1200)[:32768], 'a lone half of a letter': '\\ud800' * 5000}
    slow = 0
    for name, text in texts.items():
        began = time.time()
        page.paste('text', text), press('read')
        check(f'hostile {name} is refused', page.verdict()[0] in (1, 2), True)
        check(f'hostile {name} in time', time.time() - began < 10, True)
        slow = max(slow, page.script('const t = performance.now(); quasarhornDemo.engine.read(arguments[0]); return performance.now() - t', text))
    page.paste('text', 'S' * 32769), press('read')
    check('too long: 2, line 0', page.verdict(), [2, 0])
    page.paste('labels', 's 0 <img src=x onerror=alert(1)>\ne 1 </button><script>alert(1)</script>')
    check('markup in labels is text', chart(TWO), [0, 0])
    page.script("document.getElementById('labels').dispatchEvent(new Event('change'))")
    check('no markup came of it', page.script("return document.querySelectorAll('main img, main script').length"), 0)
    page.paste('labels', '')
    print(f'hostile texts: the engine takes at most {slow:.1f} ms')


def sizes():
    check('deepest chart', chart(DEEP), [0, 0])
    seen = set()
    for i in range(120):
        page.script("document.querySelector(`#events [data-event='${arguments[0]}']`).click()", 1 + (i * 5) % 32)
        seen.add(last()['answer'])
    check('deepest chart runs', (seen, page.agreement()), ({0}, 'alike'))
    page.shot('12-deepest')
    press('tab-plan')
    top = page.script("const p = document.getElementById('plan').getBoundingClientRect(), b = document.querySelector('.block.ran').getBoundingClientRect(); "
                      "return b.top >= p.top && b.top < p.bottom")
    check('the block that ran is in view', top, True)
    page.shot('13-deepest-plan')
    press('tab-text')
    wide = 'S 0 - o 1\n' + ''.join(f'S {i} 0 b -\n' for i in range(1, 64)) + 'E 32\n' + \
        ''.join(f'T {i} {1 + i % 63} {1 + i % 32} - - - {1 + (i * 5) % 63}\n' for i in range(128))
    check('widest chart', chart(wide), [0, 0])
    page.shot('14-widest')


def narrow():
    for width in (390, 768):
        page.browser.set_window_size(width, 900)
        page.open()
        over = page.script('return document.documentElement.scrollWidth - document.documentElement.clientWidth')
        check(f'width {width}: nothing sticks out', over <= 0, True)
        check(f'width {width}: an event clicked', event(1)['answer'], 0)
        size = page.script("const r = document.querySelector('#diagram svg').getBoundingClientRect(); return r.width > 250 && r.height > 250")
        check(f'width {width}: the diagram has room', size, True)
        if page.shots:
            full = page.script('return document.documentElement.scrollHeight')
            page.browser.set_window_size(width, full + 140)
            page.shot(f'15-narrow-{width}')
    page.browser.set_window_size(1440, 1040)
    page.open()


def speed():
    n = int(os.environ.get('EVENTS', '300000'))
    told = page.script('return quasarhornDemo.measure(arguments[0])', n)
    check('speed: all events done, as by hand', (told['refused'], told['alike']), (0, True))
    ratio = {k: round(told[k] / told['byHand'], 1) for k in ('replay', 'each', 'chartEach')}
    print('speed on K, ns an event:', json.dumps({k: round(told[k]) for k in ('replay', 'each', 'chartEach', 'byHand')}))
    print('times the hand-written switch:', json.dumps(ratio))
    print('events a second:', json.dumps({k: round(1e9 / told[k]) for k in ('replay', 'each', 'chartEach', 'byHand')}))


def words():
    expected = page.script('return quasarhornDemo.words')
    page.open()
    page.words.setdefault(0, 'done')
    check('every answer that a page can reach was met', sorted(page.words), list(range(14)))
    special = {2: ('outside its size', 'longer than'), 3: ('rule R',)}
    for number, shown in sorted(page.words.items()):
        check(f'words of {number}', any(part in shown for part in special.get(number, (expected[str(number)],))), True)


def policy():
    """After the console was looked at: a script from outside the policy is stopped."""
    ran = page.script("""try { const s = document.createElement('script'); s.textContent = 'globalThis.slippedIn = 1'; document.body.append(s); } catch {}
        return globalThis.slippedIn ?? null""")
    check('an inline script is stopped by the policy', ran, None)


for part in (panel, k, refusals_of_texts, refusals_of_calls, limits, saved, links, keys, names, hostile, sizes, narrow, speed, words):
    try:
        part()
    except Exception as e:  # a part that cannot go on has failed; the others are run all the same
        check(part.__name__, f'{type(e).__name__}: {str(e)[:400]}', 'no exception')
        page.open()
check('the console is empty', page.console(), [])
policy()
page.browser.quit()
print(f'{page.passed} passed, {page.failed} failed')
sys.exit(1 if page.failed else 0)
