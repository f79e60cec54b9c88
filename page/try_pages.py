#!/usr/bin/env python3
"""Draws every state of sixteen pages in a browser, forward and back, by keys, clicks and the slider, and takes a screenshot of each.

    page/try_pages.py PROGRAM                  of pages that PROGRAM makes
    page/try_pages.py PROGRAM --keep FOLDER    pages and screenshots stay there
    page/try_pages.py PROGRAM --size 1024,768 --dark

A state must be drawn alike on the way there and back, its table must fit the window's width, and the browser must hold what the changes of
the data give by docs/PAGES.md, as compare/runs/pages.py applies them. A rank has the sign of one that waits for ever only where no step is enabled.
What is drawn anew keeps the focus, a choice and an end are said aloud, and a click on a call, an arrow or a lane goes to its moment. The browser is Chromium without a window; where none is there,
*skipped* is written, and the status is 0. Else it is 0 where nothing was wrong.
"""

import argparse
import json
import os
import re
import shutil
import signal
import subprocess
import sys
import tempfile
from html import unescape
from pathlib import Path

TOP = os.path.dirname(os.path.dirname(os.path.abspath(__file__)))
sys.path.insert(0, f'{TOP}/compare')

from model import page_model
from runs.pages import OPENING, Shown

CLOSING = b'</script>'
BROWSERS = 'chromium', 'chromium-browser', 'google-chrome', 'chrome'
# The pages: a name, the words of each, and the moment of its screenshot.
PAGES = (('stolen_message', ('examples/stolen_message.mpd',), '#run=0&step=9'), ('race', ('examples/race.mpd',), '#run=1&step=14'),
         ('seven', ('examples/one_in_seven.mpd', '--runs', '3'), '#run=2&step=64'), ('hidden', ('examples/one_in_seven.mpd', '--hide'), '#run=1&step=17'),
         ('waitany', ('examples/waitany.mpd',), '#run=0&step=13'), ('order', ('examples/order_decides.mpd',), '#run=1&step=99'),
         ('trap', ('examples/trap.mpd',), '#run=0&step=99'), ('barrier', ('examples/skipped_barrier.mpd',), '#run=0&step=99'),
         ('lost', ('examples/lost_request.mpd',), '#run=0&step=99'), ('slots', ('examples/freed_slot.mpd', '--mode', 'slots:2'), '#run=0&step=99'),
         ('sixteen', ('examples/one_in_seven.mpd', '--ranks', '16', '--choices', '3'), '#run=0&step=60'),
         ('signs', ('signs.mpd', '--mode', 'buffered'), '#run=0&step=5'), ('two', ('two.mpd',), '#run=0&step=8'),
         ('long', ('long.mpd', '--runs', '1'), '#run=0&step=90'), ('cut', ('examples/stolen_message.mpd', '--fuel', '8'), '#run=0&step=8'),
         ('few', ('examples/one_in_seven.mpd', '--ranks', '16', '--choices', '14', '--states', '2'), '#run=0&step=999'))
# Scripts of these pages: one whose text has signs of HTML, one in which a rank waits for two calls, and one whose tree is wider than its pane.
SIGNS = (b'mpd 1;\r\nranks 2;\r\nvar x;\r\n#\t</script><!-- "\\ &lt; \r x\r\n'
         b'if rank == 0 { send -5 to 1 tag 7; send 6 to 0 tag 2; } else { recv x from 0 tag 7; }\r\n')
TWO = (b'mpd 2;\nranks 3;\nvar first;\nvar second;\nvar which;\nreq answers[2];\nif rank == 0 {\n  irecv answers[0] first from 1 tag any;\n'
       b'  irecv answers[1] second from 2 tag any;\n  waitany answers to which;\n} else {\n  if rank == 2 { recv first from 1 tag 3; }\n'
       b'  isend answers[0] rank * 1000000 to 0 tag 1234;\n  wait answers[0];\n}\n')
LONG = b'mpd 1;\nranks 3;\nvar x;\nif rank == 0 {\n' + b'  recv x from any tag 0;\n' * 36 + b'} else {\n' + b'  send rank to 0 tag 0;\n' * 18 + b'}\n'
SCRIPTS = {'signs.mpd': SIGNS, 'two.mpd': TWO, 'long.mpd': LONG}

# What is done in the browser, at the end of a page: it leaves what it has found as text in the place of the page.
TRIAL = r'''
(() => {
  const found = [], drawn = new Map(), wrong = text => found.push('WRONG ' + text);
  window.addEventListener('error', event => wrong(event.message));
  const press = key => document.dispatchEvent(new KeyboardEvent('keydown', { key, bubbles: true, cancelable: true }));
  const click = of => of && of.dispatchEvent(new MouseEvent('click', { bubbles: true }));
  // Of lanes that are scrolled a part alone is drawn, which depends on where they stood before.
  const lanesText = () => el('lanes').scrollWidth > el('lanes').clientWidth + 2 ? '' : el('lanes').textContent;
  const text = () => ['source', 'tree', 'choice', 'told', 'table', 'step', 'verdict'].map(part => el(part).hidden ? '' : el(part).textContent).join('|') + lanesText();
  const callsHeld = () => S.calls.map(list => list.map(({ partner, ...call }) => [call, partner || null]));
  const held = () => JSON.stringify([S.place, S.values, S.requests, S.printed, callsHeld(), S.why]);
  let count = 0;
  function look(how) {
    const key = `${endOf()} ${k} ${covered}`, now = text(), state = run[k];
    count++;
    if (drawn.has(key) && drawn.get(key) !== now) {
      const was = drawn.get(key), at = [...now].findIndex((sign, i) => sign !== was[i]);
      wrong(`${how}: run ${endOf()}, step ${k} is drawn otherwise: ${was.slice(at - 20, at + 30)} | ${now.slice(at - 20, at + 30)}`);
    }
    if (!drawn.has(key)) found.push(`STATE ${state} ${held()}`);
    drawn.set(key, now);
    if (/undefined|NaN|Infinity|\[object/.test(document.querySelector('main').innerHTML)) wrong(`${how}: step ${k} has no number or no text`);
    if (document.querySelectorAll('#source .badge').length !== N) wrong(`${how}: step ${k} has not each rank`);
    if (+el('slider').value !== k) wrong(`${how}: the slider`);
    const pane = el('table').parentElement;
    if (pane.scrollWidth > pane.clientWidth + 1) wrong(`${how}: the table of step ${k} is wider than the window`);
    const stops = [...document.querySelectorAll('#lanes title')].filter(title => /is blocked$/.test(title.textContent)).length;
    const forever = k === last() && !covered && ends[endOf()].ends !== 'cut' ? S.place.filter(place => place[1] === 'blocked').length : 0;
    if (stops !== forever) wrong(`${how}: ${stops} signs at step ${k}, not ${forever}`);
    if (!el('aloud').textContent !== (el('choice').hidden && el('told').hidden)) wrong(`${how}: what is said aloud at step ${k}`);
    const tree = el('tree').getBoundingClientRect(), ahead = el('treepane').hidden ? null : run.slice(k).find(i => isChoice(i) || endAt.has(i));
    const mark = ahead !== null && document.querySelector(`#tree [data-node="${ahead}"] path, #tree [data-end="${endOf()}"] .mid`);
    if (mark && (mark.getBoundingClientRect().right < tree.left || mark.getBoundingClientRect().left > tree.right)) wrong(`${how}: the tree doesn't show step ${k}`);
    if (ends[endOf()].ends === 'cut' && el('table').textContent.includes('nothing fits')) wrong(`${how}: nothing fits where the run goes on`);
  }
  function expect(what, how) { if (!what) wrong(how); look(how); }
  try {
    expect(inOrder([0, 1, 2, 3, 4], [[0, 2], [2, 1], [1, 3], [3, 0], [4, 0]]).join() === '0,2,1,3,4', 'ranks of a cycle stand in its order');
    expect(!D.hide || endOf() === 0 && k === 0, 'a page whose ends are covered begins with its first run');
    for (let e = 0; e < ends.length; e++) {
      const sign = document.querySelector(`[data-end="${e}"]`);
      if (sign) { click(sign); expect(endOf() === e && k === last(), 'a click on an end'); } else choose(e, 0);
      press('Home'); expect(k === 0, 'Home');
      for (let d = 1; d <= last(); d++) { press('ArrowRight'); expect(k === d, 'right'); }
      press('ArrowRight'); expect(k === last(), 'right at the end');
      for (let d = last() - 1; d >= 0; d--) { press('ArrowLeft'); expect(k === d, 'left'); }
      for (let d = 0; d <= last(); d += 3) {
        el('slider').value = d;
        el('slider').dispatchEvent(new Event('input'));
        expect(k === d, 'the slider');
      }
      for (const [name, to] of [['Home', 0], ['ArrowRight', Math.min(1, last())], ['ArrowLeft', 0], ['End', last()]]) {
        click(document.querySelector(`[data-go="${name}"]`));
        expect(k === to, name);
      }
      press('b'); look('b');
      const byKey = key => { press('Home'); const found = []; do { press(key); found.push(k); } while (k < last()); return found.join(' '); };
      const byButton = key => { press('Home'); const found = []; do { click(document.querySelector(`[data-go="${key}"]`)); found.push(k); } while (k < last()); return found.join(' '); };
      const matches = facts.flatMap((fact, d) => fact && fact.kind === 'match' ? [d] : []), steps = k => facts.flatMap((fact, d) => fact && isOf(fact, k) ? [d] : []);
      const toEnd = list => [...new Set([...list, last()])].join(' ');
      expect(byKey('m') === toEnd(matches) && byButton('m') === toEnd(matches), 'm');
      press('Home'); press('r'); expect(k === [...steps(0), last()][0], 'r at the start');
      for (let d = 1; d <= last(); d++) { go(d); press('r'); expect(k === [...steps(facts[d].rank).filter(e => e > d), last()][0], 'r'); }
      expect(byButton('c') === byKey('c'), 'c by its button');
      for (const part of [...document.querySelectorAll('#lanes [data-step]')].map(part => part.dataset.step)) {
        press('End');
        click(document.querySelector(`#lanes [data-step="${part}"]`));
        expect(k === +part, 'a click in the lanes');
      }
      for (let d = 0; d <= last(); d += 4) {
        go(d);
        const svg = document.querySelector('#lanes svg'), x = svg.getBoundingClientRect().left + xs[d] * unit;
        svg.dispatchEvent(new MouseEvent('click', { bubbles: true, clientX: x }));
        expect(k === d, 'a click on a lane');
      }
      const token = (press('End'), document.querySelector('#table [data-step]')), name = token && token.title.split(' ')[2];
      if (token) { click(token); expect(facts[k].id === name, 'a click on a call of the table'); }
      for (const d of [...document.querySelectorAll('#marks [data-step]')].map(mark => +mark.dataset.step)) {
        click(document.querySelector(`#marks [data-step="${d}"]`));
        expect(k === d, 'a mark');
      }
      press('Home');
      for (const d of choices().filter(d => d > 0)) { press('c'); expect(k === d, 'c'); }
      press('End');
      for (const d of choices().reverse().filter(d => d < last())) { press('u'); expect(k === d, 'u'); }
      const own = run;
      for (const d of choices()) for (let c = 0; c < nodes[own[d]].k.length; c++) for (const by of ['key', 'click']) {
        choose(e, d);
        const to = taken(run[d], c), button = document.querySelector(`[data-take="${c}"]`);
        if (by === 'key' && c < 9) press(String(c + 1)); else click(button);
        expect(to === undefined ? k === d && button.disabled : run[k] === to, `candidate ${c} by ${by}`);
      }
    }
    for (const at of [...document.querySelectorAll('[data-node]')].map(node => +node.dataset.node)) {
      click(document.querySelector(`[data-node="${at}"]`));
      expect(run[k] === at, 'a click on a choice');
      choose(0, 0);
      const again = document.querySelector(`[data-node="${at}"]`);
      again.focus();
      again.dispatchEvent(new KeyboardEvent('keydown', { key: 'Enter', bubbles: true, cancelable: true }));
      expect(run[k] === at && document.activeElement.dataset.node === String(at), 'a choice of the tree by Tab and Enter');
      const button = document.querySelector('[data-take]:not([disabled])');
      if (button) { button.focus(); click(button); expect(document.activeElement !== document.body, 'the focus stays at a choice'); }
    }
    press('h'); look('h'); press('h'); look('h again');
    printing = true; lanes(); printing = false; lanes();
    location.hash = '#run=0&step=1';
    come();
    expect(endOf() === 0 && k === Math.min(1, last()), 'the address');
    go(0);
    note();
    expect(location.hash === '#run=0&step=0', 'the address is noted');
    found.push(`DRAWN ${count}`);
  } catch (why) { wrong(why.stack); }
  document.body.innerHTML = '<pre id="found"></pre>'; el('found').textContent = found.join('\n');
})();
'''


def browser():
    """The browser, or None."""
    return next((found for name in (os.environ.get('BROWSER', ''), *BROWSERS) if name and (found := shutil.which(name))), None)


def started(program, asked, *words):
    """What the browser writes, with a profile of its own; nothing where it takes too long."""
    look = '--blink-settings=preferredColorScheme=' + ('0' if asked.dark else '1')
    with tempfile.TemporaryDirectory(prefix='browser-', ignore_cleanup_errors=True) as profile:
        line = [program, '--headless', '--no-sandbox', '--disable-gpu', '--hide-scrollbars', '--no-first-run', '--disable-extensions', look,
                f'--window-size={asked.size}', f'--user-data-dir={profile}', *words]
        with subprocess.Popen(line, stdout=subprocess.PIPE, stderr=subprocess.DEVNULL, start_new_session=True) as process:
            try:
                return process.communicate(timeout=asked.seconds)[0].decode(errors='replace')
            except subprocess.TimeoutExpired:
                os.killpg(process.pid, signal.SIGKILL)
                return ''


def wrong_states(data, lines):
    """The states that the browser holds otherwise than the changes of the data give, and how many were looked at."""
    views, wrong = [], []
    for number, node in enumerate(data['nodes']):
        views.append(views[node.get('p', number - 1)].copied() if number else Shown(data))
        views[-1].apply(node)
    for line in lines:
        _, number, held = line.split(' ', 2)
        view = views[int(number)]
        calls = [[[call, page_model.plain(view.partners.get((rank, place)))] for place, call in enumerate(of_rank)] for rank, of_rank in enumerate(view.calls)]
        if json.loads(held) != [view.places, view.values, view.handles, view.printed, calls, view.why]:
            wrong.append(f'state {number} holds something else')
    return wrong


def tried(program, folder, asked, name, words, moment):
    """What is wrong with a page in the browser, how many states were drawn, and its screenshot."""
    words = [str(Path(folder, word)) if word in SCRIPTS else word for word in words]
    made = subprocess.run([os.path.abspath(asked.program), 'page', *words], capture_output=True, cwd=TOP, check=False)
    if made.returncode:
        return [made.stderr.decode().strip()], 0
    page, trial, picture = (Path(folder, f'{name}{end}') for end in ('.html', '-trial.html', '.png'))
    page.write_bytes(made.stdout)
    trial.write_bytes(made.stdout.replace(b'</body>', b'<script>' + TRIAL.encode() + b'</script>\n</body>'))
    text = started(program, asked, '--dump-dom', f'file://{trial}')
    found = re.search('<pre id="found">(.*?)</pre>', text, re.S)
    lines = unescape(found[1]).split('\n') if found else ['WRONG nothing was found']
    data = json.loads(made.stdout.split(OPENING)[1].split(CLOSING)[0])
    states = [line for line in lines if line.startswith('STATE ')]
    wrong = [line for line in lines if line.startswith('WRONG ')] + wrong_states(data, states)
    if not wrong and len({line.split()[1] for line in states}) != len(data['nodes']):
        wrong.append('not each state was drawn')
    started(program, asked, f'--screenshot={picture}', f'file://{page}{moment}')
    if not picture.exists() or picture.stat().st_size < 10000:
        wrong.append('no screenshot')
    return wrong, sum(int(line.split()[1]) for line in lines if line.startswith('DRAWN '))


def main():
    parser = argparse.ArgumentParser(description=__doc__, formatter_class=argparse.RawDescriptionHelpFormatter)
    parser.add_argument('program', metavar='PROGRAM')
    parser.add_argument('--keep', metavar='FOLDER', help='where pages and screenshots stay')
    parser.add_argument('--size', default='1280,720', help='width and height of a window (1280,720)')
    parser.add_argument('--dark', action='store_true', help='dark colours')
    parser.add_argument('--only', help='one page alone, by its name')
    parser.add_argument('--seconds', type=float, default=300, help='how long the browser may take (300)')
    asked = parser.parse_args()
    program, bad = browser(), 0
    if program is None:
        print('skipped: no browser is there (chromium)')
        return 0
    with tempfile.TemporaryDirectory(prefix='pages-') as temporary:
        folder = os.path.abspath(asked.keep or temporary)
        os.makedirs(folder, exist_ok=True)
        for name, text in SCRIPTS.items():
            Path(folder, name).write_bytes(text)
        for name, words, moment in PAGES:
            if asked.only in (None, name):
                wrong, drawn = tried(program, folder, asked, name, words, moment)
                print(f'{name}: {drawn} drawn, {len(wrong)} wrong', *wrong[:5], sep='\n  ', flush=True)
                bad += bool(wrong)
    return 1 if bad else 0


if __name__ == '__main__':
    sys.exit(main())
