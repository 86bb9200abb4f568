// Looks at a page in a browser, in a frame of WIDTH x HEIGHT: it shows each line, and then goes through the page by keys. What is wrong goes to
// the window around the frame.
'use strict';
const wrong = [], counts = { looks: 0, rows: 0, hidden: 0, bytes: 0, sharers: 0, folded: 0, walked: 0, reasons: 0, audits: 0, keys: 0 };
const say = text => { if (wrong.length < 20) wrong.push('line ' + (now + 1) + ': ' + text); };
const key = name => { document.dispatchEvent(new KeyboardEvent('keydown', { key: name, bubbles: true })); counts.keys++; };
const texts = panel => [...at(panel).querySelectorAll('.row')].filter(it => !it.hidden);

// Whether what is in a box is within it, and within the window.
function within(box) {
  const outer = box.getBoundingClientRect();
  if (outer.right > innerWidth + 1 || outer.bottom > innerHeight + 1) say(box.id + ' is outside of the window');
  for (const it of box.querySelectorAll('*')) {
    // A line beside the one that is shown may be cut.
    if (it.matches('#lines > :not(.now) *')) continue;
    const inner = it.getBoundingClientRect();
    if (inner.width && (inner.right > outer.right + 1 || inner.bottom > outer.bottom + 1 || inner.top < outer.top - 1))
      say('outside of ' + box.id + ': ' + it.textContent.slice(0, 60));
  }
}

// The first frame and the last of a row of frames; nothing for another row.
const framesOf = row => (/^f(0x[0-9a-f]+)(?:\.\.(0x[0-9a-f]+))?$/.exec(row.dataset.key) || []).slice(1).filter(it => it).map(number);

// Each frame is in one row, with the names of all its pages. Folded are frames with a page each, in a row, which the line did not touch, and all
// of which it took, or none.
function lookAtFrames(step, state) {
  const rows = texts('frames').filter(it => !it.matches('.gone') && framesOf(it).length);
  const before = open && step.before && !step.before.frames.more && !state.frames.more ? step.before.frames.frames : null;
  for (const frame of state.frames.frames) {
    const ppn = number(frame.ppn), holding = rows.filter(it => framesOf(it)[0] <= ppn && ppn <= framesOf(it).pop());
    if (holding.length > 1 || !holding.length && !at('frames').querySelector('.more')) say('frame ' + frame.ppn + ' is in ' + holding.length + ' rows');
    if (!holding.length || frame.ppn === '0x80000') continue;
    const row = holding[0], names = [...row.querySelectorAll('.who')].map(it => it.textContent), [first, last] = framesOf(row);
    if (names.length !== frame.names.length) say('frame ' + frame.ppn + ' has ' + names);
    counts.sharers += names.length;
    if (last === undefined) continue;
    counts.folded++;
    const [slot, from, to] = names[0].split(/:|\.\./), page = number(from) + (number(from) < number(to) ? 4096 : -4096) * (ppn - first);
    if (frame.count !== 1 || Number(slot) !== frame.names[0].slot || page !== number(frame.names[0].page)) say('frame ' + frame.ppn + ' is folded as ' + names);
    if (!row.textContent.endsWith(last - first + 1 + ' pages')) say('the fold of ' + frame.ppn + ' is counted otherwise');
    if (state.cell && state.cell.rows.some(it => it.ppn === frame.ppn)) say('frame ' + frame.ppn + ' is folded, and touched');
    const was = before && before.find(it => it.ppn === frame.ppn);
    if (before && (row.matches('.changed') ? was : !was || JSON.stringify(was) !== JSON.stringify(frame))) say('a fold hides what the line changed of frame ' + frame.ppn);
  }
}

// Before the answer to an audit no count of frames is shown.
function lookAtAudit() {
  const rows = texts('frames').filter(it => !/^(file|i)[0-9]/.test(it.dataset.key));
  if (rows.length !== 1 || /[0-9]/.test(rows[0].textContent)) say('the counts that are asked can be read');
  counts.audits++;
}

function look() {
  const step = steps[now], state = open ? step.after : step.before;
  counts.looks++;
  if (document.documentElement.scrollHeight > innerHeight || document.documentElement.scrollWidth > innerWidth) say('the page scrolls');
  for (const name of ['lines', 'trace', 'processes', 'tables', 'frames']) if (at(name).offsetParent) within(at(name));
  if (!state) return;
  const manyPages = slotsOf(state).some(it => it.regions.some(region => region.settled > LISTED));
  for (const name of Object.keys(PANELS)) {
    const rows = [...at(name).querySelectorAll('.row')];
    counts.rows += rows.length;
    counts.hidden += rows.filter(it => it.hidden).length;
    const mustFit = manyPages && name !== 'frames' ? '.walked, .bytes' : '.changed, .walked, .bytes';
    if (rows.some(it => it.hidden && it.matches(mustFit))) say('a row that the line changes or walks is hidden in ' + name);
    if (parseFloat(getComputedStyle(rows[0]).fontSize) < innerHeight / 45) say('small letters in ' + name);
  }
  const asked = steps.slice(now).find(it => it.trace.answer !== undefined);
  const isAudit = quiz && asked && (asked !== step || !open) && asked.trace.text.startsWith('audit');
  if (isAudit) lookAtAudit();
  else {
    lookAtFrames(step, state);
    const isCounted = texts('frames').some(it => it.textContent.includes('free: ' + state.frames.free + ' frames'));
    if (!at('frames').querySelector('.more') && !isCounted) say('free frames are not counted');
  }
  if (!open) return;
  const request = step.trace.request, told = [...at('trace').children].filter(it => !it.hidden).map(it => it.textContent);
  for (const why of [request && request.reason, step.trace.note]) {
    if (why && !told.includes(why)) say('it is hidden why: ' + why.slice(0, 60));
    counts.reasons += why ? 1 : 0;
  }
  const rule = request && request.access && request.access.rule;
  if (rule && !told.some(it => it.includes('denied by rule ' + rule.number + ' ' + rule.name))) say('rule ' + rule.number + ' is hidden');
  for (const word of request ? request.walk : []) {
    const row = texts('tables').find(it => it.dataset.key.replace('-still', '') === 'w' + word.table + '-' + word.index && it.matches('.walked'));
    if (!row) say('a word of the walk is not marked: ' + word.table + '[' + word.index + ']');
    counts.walked++;
  }
  if (request && request.entry && !at('tables').querySelector('.walked')) say('the entry that the access uses is not marked');
  if (state.cell) for (const it of state.cell.rows) {
    // No user has access to the kernel's pages, which are in no region; the model says nothing of their bytes.
    if (number(it.page) >= number(state['slot' + it.slot].trapframe)) {
      if ([...document.querySelectorAll('.bytes')].some(row => row.dataset.key.endsWith('-' + it.address))) say('bytes of the kernel are shown, at ' + it.address);
      continue;
    }
    const row = texts('processes').find(other => other.dataset.key.startsWith('c' + it.slot + '-' + it.page));
    if (!row) say('the bytes of ' + it.slot + ':' + it.page + ' are not shown');
    else if (!row.textContent.includes(it.bytes.map(byte => byte.toString(16).padStart(2, '0')).join(''))) say('other bytes of ' + it.slot + ':' + it.page);
    counts.bytes++;
  }
}

function go() {
  if (innerWidth !== WIDTH || innerHeight !== HEIGHT) say('the window is ' + innerWidth + ' x ' + innerHeight);
  for (let place = 0; place < steps.length; place++) {
    show(place);
    look();
    if (!open) { key(' '); look(); }
  }
  key('Home');
  if (now !== 0) say('Home does not go to the first line');
  key('ArrowRight');
  if (steps.length > 1 && open && now !== 1 && !quiz) say('the right arrow does not go on');
  key('Home');
  for (let more = 0; more < 3 * steps.length && (now < steps.length - 1 || !open); more++) {
    const place = now, was = open;
    key(more % 2 ? ' ' : 'PageDown');
    if (quiz && !was && (now !== place || !open)) say('the answer is not shown first');
    if (quiz && was && steps[now].trace.answer !== undefined && open) say('the answer is shown at once');
    if (quiz && !open && at('lines').textContent.includes('⇒ ' + steps[now].trace.answer) && steps.filter(it => it.trace.answer === steps[now].trace.answer).length === 1) say('the answer can be read');
    if (!quiz && steps[now].trace.answer === undefined && now < steps.length - 1 && steps[now + 1].trace.answer === undefined) say('stops within lines without answers');
    // Chromium ignores more than 200 changes of a fragment in some seconds.
    if (counts.looks + counts.keys < 180 && location.hash.slice(1).split(',')[0] !== String(now + 1)) say('the fragment is ' + location.hash);
  }
  if (now !== steps.length - 1) say('PageDown does not come to the last line');
  for (let more = 0; more < steps.length && now > 0; more++) key('PageUp');
  if (now > stops[0]) say('PageUp does not come back');
  const ground = () => getComputedStyle(document.body).backgroundColor, light = ground();
  key('d');
  if (ground() === light) say('d does not switch between light and dark');
}

try { go(); } catch (error) { wrong.push(String(error) + ' at line ' + (now + 1)); }
parent.postMessage(JSON.stringify({ wrong, counts }), '*');
