'use strict';

// A run, by its data as docs/PAGE.md describes it. Places are numbered: special registers 0 to 31, global ones 32 to
// 255, and further ones as records name them. Record r leads to step r, and record 0 to the start.
function runOf({ start, records, steps }) {
  const text = start + records;
  let changes = 0;
  for (let i = -1; (i = text.indexOf('=', i + 1)) >= 0; ) changes++;
  const numbers = new Map(); // of places by their names
  const first = new Uint32Array(steps + 2); // the first change of each record
  const place = new Uint32Array(changes);
  const change = new BigUint64Array(changes);
  // at each step: the next address, how many registers are hidden, by which record's call, and how much was written
  const pc = new BigUint64Array(steps + 1);
  const [hidden, call, written] = [0, 0, 0].map(() => new Uint32Array(steps + 1));
  const errors = new Set(); // the records that wrote to standard error

  const numberOf = (kind, index, name) => {
    if (kind === 's' || kind === 'g') return index;
    if (!numbers.has(name)) numbers.set(name, 256 + numbers.size);
    return numbers.get(name);
  };

  // what hides registers is a call; it has returned when as few are hidden as before it
  const callAfter = (r) => {
    if (hidden[r] > hidden[r - 1]) return r;
    let c = call[r - 1];
    while (c && hidden[c - 1] >= hidden[r]) c = call[c - 1];
    return c;
  };

  const number = new BigUint64Array(1);
  const half = new Uint32Array(number.buffer); // low, high
  let [i, n, stack] = [0, 0, 0];
  const readNumber = () => {
    for (half.fill(0); ; i++) {
      const c = text.charCodeAt(i);
      const digit = c < 58 ? c - 48 : c - 87;
      if (!(digit >= 0 && digit < 16)) return;
      half[1] = (half[1] << 4) | (half[0] >>> 28);
      half[0] = (half[0] << 4) | digit;
    }
  };
  for (let r = 0; r <= steps; r++) {
    const last = pc[r - 1] ?? 0n;
    pc[r] = last + 4n;
    first[r] = n;
    written[r] = written[r - 1];
    while (text[i] !== ';') {
      const from = i++;
      readNumber();
      if (text[from] === '@') pc[r] = last ^ number[0];
      else if (text[i] === '=') {
        place[n] = numberOf(text[from], half[0], text.slice(from, i++));
        readNumber();
        if (place[n] === RO) stack ^= half[0];
        change[n++] = number[0];
      } else {
        written[r] += half[0];
        if (text[from] === '!') errors.add(r);
      }
    }
    i++;
    hidden[r] = (stack & 0xffffff) >>> 3;
    call[r] = callAfter(r);
  }
  first[steps + 1] = n;

  return {
    ...{ steps, numbers, first, place, change, pc, hidden, call, written, errors },
    value: new BigUint64Array(256 + numbers.size),
    at: -1,
    apply(r) {
      for (let n = first[r]; n < first[r + 1]; n++) this.value[place[n]] ^= change[n];
    },
    goTo(step) {
      while (this.at < step) this.apply(++this.at);
      while (this.at > step) this.apply(this.at--);
      return this;
    },
    // the last record up to a step that changes a place, or 0
    makerOf(wanted, step) {
      let n = first[step + 1] - 1;
      while (n >= 0 && place[n] !== wanted) n--;
      while (step > 0 && first[step] > n) step--;
      return step;
    },
    // the nearest step, on (1) or back (-1), with at most so many more registers hidden than now; or the last one
    nearest(by, more) {
      let step = this.at + by;
      while (step > 0 && step < steps && hidden[step] > hidden[this.at] + more) step += by;
      return step;
    },
  }.goTo(0);
}

const [RO, RS, RG, RL] = [10, 11, 19, 20];
const SPECIALS =
  'rB rD rE rH rJ rM rR rBB rC rN rO rS rI rT rTT rK rQ rU rV rG rL rA rF rP rW rX rY rZ rWW rXX rYY rZZ'.split(' ');

// by keys, which buttons name, too
const MOVES = {
  Home: () => 0,
  ShiftArrowUp: () => run.nearest(-1, -1),
  ShiftArrowLeft: () => run.nearest(-1, 0),
  ArrowLeft: () => run.at - 1,
  ArrowRight: () => run.at + 1,
  ShiftArrowRight: () => run.nearest(1, 0),
  ShiftArrowDown: () => run.nearest(1, -1),
  End: () => run.steps,
};

// ---- texts

const hexadecimal = (value) => '#' + value.toString(16);
const addressOf = (text) => BigInt('0x' + text.slice(1));

function charactersOf(value) {
  const bytes = value.toString(16).padStart(16, '0').match(/../g);
  return bytes.map((b) => (b > '1f' && b < '7f' ? String.fromCharCode('0x' + b) : '.')).join('');
}

// bytes, one a character, as UTF-8; what is none, and what controls a terminal, as \xNN
function textOf(bytes) {
  const coded = (c, sign) => c.replace(/[^]/g, (b) => sign + b.charCodeAt(0).toString(16).padStart(2, '0'));
  const special = /[\xc2-\xdf][\x80-\xbf]|[\xe0-\xef][\x80-\xbf]{2}|[\xf0-\xf4][\x80-\xbf]{3}|[^\t\n -~]/g;
  return bytes.replace(special, (c) => {
    try {
      if (c.length > 1) return decodeURIComponent(coded(c, '%'));
    } catch {}
    return coded(c, '\\x');
  });
}

// the last label of the segment up to an address, and how far the address is from it
function labelOf(address) {
  const label = labels.findLast(({ value }) => value <= address);
  if (!label || label.value >> 61n !== address >> 61n || address - label.value >> 24n) return '';
  return label.name + (label.value < address ? '+' + (address - label.value) : '');
}

const shownValue = (value) => (value >> 61n && !(value >> 63n) && labelOf(value)) || String(BigInt.asIntN(64, value));

function endOfRun() {
  const { message, status } = data.outcome;
  const cut = `The program went on; these are its first ${data.steps} steps.`;
  return {
    halted: `The program halted with status ${status}.`,
    stopped: `The program was stopped: ${message}.`,
    steps: cut + ' With --steps there are more.',
    records: cut + ' There is no room for more.',
    refused: `The program is refused: ${message}.`,
  }[data.end];
}

// ---- the program

const UNTOLD = /^r([LOS]|(.)\2)$/; // special registers that calls and traps change beside, as rBB
const [MOST_VALUES, MOST_BYTES, MOST_LINES] = [100, 20000, 3000]; // that are shown at once
let data, run, specials, stop;
const octas = []; // of memory, those that change: { name, place, address }
const indices = new Map(); // of these, by their places
const before = new Map(); // the values that the last step changed, as they were, by their places
const labels = ['Data', 'Pool', 'Stack'].map((name, k) => ({ name: name + '_Segment', value: BigInt(k + 1) << 61n }));
const registerNames = new Map();
const namesAt = new Map(); // the labels of loaded tetras, by their addresses
const lines = []; // { line, addresses, tr, text }
const lineAt = new Map(); // by the address

const $ = (id) => document.getElementById(id);

function add(parent, name, text = '', className = '') {
  const child = document.createElement(name);
  child.textContent = text;
  if (className) child.className = className;
  parent.append(child);
  return child;
}

function readSymbols() {
  for (const { cells } of data.lines) for (const { address } of cells) namesAt.set(addressOf(address), []);
  for (const symbol of data.symbols) {
    const name = symbol.name.replace(/^:/, '');
    if (symbol.value[0] === '$') {
      registerNames.set(symbol.value, (registerNames.get(symbol.value) ?? symbol.value) + ' ' + name);
    } else {
      const value = addressOf(symbol.value);
      const names = namesAt.get(value & ~3n);
      names?.push(name);
      if (names || value >> 61n) labels.push({ name, value });
    }
  }
  labels.sort((a, b) => (a.value > b.value) - (a.value < b.value));
}

function showLine(line, heat) {
  const tr = add($('lines'), 'tr', '', line.times === 0 ? 'never' : '');
  const addresses = line.cells.map(({ address }) => addressOf(address));
  const few = (texts) => texts.slice(0, 4).join('\n') + (texts.length > 4 ? '\n…' : '');
  const places = [line.line ?? '', few(addresses.map(hexadecimal))];
  if (data.object) places.reverse();
  add(tr, 'td');
  add(add(tr, 'th'), line.times && addresses.length ? 'button' : 'span', places[0]);
  add(tr, 'td', places[1], 'more');
  add(tr, 'td', few(line.cells.map(({ tetra }) => tetra)), 'more');
  add(tr, 'td', line.times ?? '', 'times').style.setProperty('--part', heat);
  add(tr, 'td', line.oops ?? '', 'more');
  add(tr, 'td', line.mems ?? '', 'more');
  const text = add(tr, 'td', '', 'text');
  if (data.object) add(text, 'b', (namesAt.get(addresses[0]) ?? []).map((name) => name + '\n').join(''));
  text.append(line.text);
  lines.push({ line, addresses, tr, text });
  for (const address of addresses) if (!lineAt.has(address)) lineAt.set(address, lines.at(-1));
}

// of a long program the lines that are carried out
function showProgram() {
  const heads = document.querySelectorAll('thead th');
  if (data.object) [heads[1].textContent, heads[2].textContent] = ['address', 'line'];
  const most = data.lines.reduce((most, { times }) => Math.max(most, times), 9);
  const isShort = !data.start || data.lines.length <= MOST_LINES;
  for (const line of data.lines) if (isShort || line.times) showLine(line, Math.log1p(line.times) / Math.log1p(most));
  if (data.total) showLine({ ...data.total, cells: [], text: 'all steps' }, 0);
}

// a row below a line: what is wrong with it, or why the run was stopped there
function addNote(shown, title, texts) {
  const tr = add($('lines'), 'tr', '', 'note');
  const cell = add(tr, 'td');
  cell.colSpan = 8;
  add(cell, 'b', title);
  for (const text of texts) if (text) add(cell, 'p', text);
  shown?.tr.after(tr);
  return tr;
}

function showFault({ at, caret, fault, from_line, help, length, line, meant, name, what }) {
  const shown = lines[at - 1];
  const other = from_line && `From line ${from_line}, to line ${line}.`;
  addNote(shown, `${fault} ${name}`, [other, what, meant && `Is ${meant} meant?`, help]);
  if (!shown || !caret) return;
  const { bytes, text } = shown.line;
  const all = bytes ? Uint8Array.from(bytes.match(/../g), (b) => '0x' + b) : new TextEncoder().encode(text);
  const part = (from, to) => new TextDecoder().decode(all.slice(from, to));
  shown.text.textContent = part(0, caret - 1);
  add(shown.text, 'mark', part(caret - 1, caret - 1 + length));
  shown.text.append(part(caret - 1 + length));
}

// ---- a step

const special = (code) => Number(run.value[code] & 0xffffffn);
const registerName = (k) => registerNames.get('$' + k) ?? '$' + k;
// a program that has halted has no next line
const hasNext = () => run.at < run.steps || data.end !== 'halted';

function lineName(step) {
  const line = lineAt.get(run.pc[step])?.line.line;
  return line ? 'line ' + line : labelOf(run.pc[step]) || hexadecimal(run.pc[step]);
}

// fills a table with values, { name, place, address }, and calls, { name, step }
function showValues(id, items) {
  const body = $(id);
  body.closest('section').hidden = !items.length;
  items.forEach(({ name, place, step, address }, i) => {
    const row = body.rows[i] ?? addValue(body);
    const value = run.value[place] ?? 0n;
    const texts = step ? ['step ' + step, ''] : [shownValue(value), hexadecimal(value)];
    texts.push(address ? charactersOf(value) : '', before.has(place) ? 'was ' + shownValue(before.get(place)) : '');
    [name, ...texts].forEach((text, k) => {
      const node = row.cells[k].firstElementChild ?? row.cells[k];
      if (node.textContent !== text) node.textContent = text;
    });
    row.className = step ? 'call' : before.has(place) ? 'new' : '';
    row.title = address ? hexadecimal(address) : '';
    Object.assign(row, { place, step });
  });
  while (body.rows.length > items.length) body.lastChild.remove();
}

function addValue(body) {
  const row = add(body, 'tr');
  add(row, 'th');
  add(add(row, 'td', '', 'value'), 'button');
  for (const name of ['hexadecimal', 'characters', 'was']) add(row, 'td', '', name);
  return row;
}

// registers from one number up to another, as values
const registers = (from, to, nameOf, placeOf) =>
  Array.from({ length: to - from }, (_, k) => ({ name: nameOf(k), place: placeOf(from + k) }));
const stacked = (i) => run.numbers.get('l' + i.toString(16));

function callItems() {
  const items = [];
  for (let call = run.call[run.at]; call; call = run.call[call - 1]) {
    if (items.length > MOST_VALUES) return [...items, { name: 'and more, up to', step: call }];
    items.push({ name: 'from ' + lineName(call - 1), step: call });
    items.push(...registers(run.hidden[call - 1], run.hidden[call], (k) => '  $' + k, stacked));
  }
  return items;
}

// as many octas as can be looked over, with the one that was changed last
function octasShown() {
  if (octas.length <= MOST_VALUES) return octas;
  let n = run.first[run.at + 1] - 1;
  while (n >= 0 && !indices.has(run.place[n])) n--;
  const from = Math.max(0, (indices.get(run.place[n]) ?? 0) - MOST_VALUES / 2);
  $('window').textContent = `${MOST_VALUES} octas of ${octas.length}`;
  return octas.slice(from, from + MOST_VALUES);
}

function showOutput() {
  const [from, to] = [run.written[run.at - 1] ?? 0, run.written[run.at]];
  const start = Math.max(0, to - MOST_BYTES);
  const all = textOf(data.output.slice(start, to));
  let old = textOf(data.output.slice(start, Math.max(from, start)));
  while (!all.startsWith(old)) old = old.slice(0, -1);
  const output = $('output');
  output.textContent = (start ? '…' : '') + old;
  add(output, 'mark', all.slice(old.length));
}

function showRing() {
  const [hidden, local, spilled, size] = [run.hidden[run.at], special(RL), special(RS) >> 3, data.ring];
  const draw = (name, from, length) => {
    const arc = document.querySelector('circle.' + name);
    arc.setAttribute('stroke-dasharray', [length, size - length]);
    arc.setAttribute('stroke-dashoffset', -from % size);
    arc.setAttribute('pathLength', size);
  };
  draw('hidden', spilled, hidden - spilled);
  draw('local', hidden, local);
  $('ring-told').textContent = `Of ${size} registers ${local} are local (broad), ${hidden - spilled} hidden, and the
    rest free (thin). ${spilled} more hidden ones are in memory.`;
}

// the changes of registers and memory that are told, by the rows that show them
function changesTold() {
  const rows = [...document.querySelectorAll('#state section:not(#calls) .new')];
  const texts = rows.map(({ cells }) => [0, 1, 4].map((k) => cells[k].textContent));
  return texts.filter(([name]) => !UNTOLD.test(name)).map(([name, value, was]) => `${name} = ${value}, ${was}`);
}

function tellStep() {
  const { at, steps, hidden, written, errors } = run;
  const texts = [`Step ${at} of ${steps}.`];
  if (at) {
    const told = changesTold();
    if (told.length > 3) told.splice(3, told.length, `${told.length - 3} more`);
    if (hidden[at] > hidden[at - 1]) told.unshift('a call');
    if (hidden[at] < hidden[at - 1]) told.unshift('a return');
    const bytes = written[at] - written[at - 1];
    if (bytes) told.push(`${bytes} byte${bytes > 1 ? 's' : ''} written` + (errors.has(at) ? ' to standard error' : ''));
    texts.push(`Last: ${[lineName(at - 1), ...told].join('; ')}.`);
  }
  if (hasNext()) texts.push(`Next: ${lineName(at)}.`);
  if (at === steps) texts.push(endOfRun());
  $('told').textContent = texts.join(' ');
}

// marks the lines that are next and done, and gives the one to look at
function markLines() {
  document.querySelector('.done')?.classList.remove('done');
  document.querySelector('[aria-current]')?.removeAttribute('aria-current');
  const done = lineAt.get(run.pc[run.at - 1])?.tr;
  const now = hasNext() && lineAt.get(run.pc[run.at])?.tr;
  done?.classList.add('done');
  if (now) now.setAttribute('aria-current', 'step');
  return now || done;
}

// scrolls a box to a row of it, if there is one
function reveal(box, row) {
  const top = row ? row.getBoundingClientRect().top - box.getBoundingClientRect().top : 30;
  if (top < 30 || top + 30 > box.clientHeight) box.scrollTop += top - box.clientHeight / 3;
}

function goTo(step) {
  run.goTo(Math.max(0, Math.min(run.steps, step)));
  const { at, steps, place, change, first, value } = run;
  before.clear();
  for (let n = first[at]; at && n < first[at + 1]; n++) before.set(place[n], value[place[n]] ^ change[n]);
  $('slider').value = $('step').value = at;
  $('slider').setAttribute('aria-valuetext', `step ${at} of ${steps}`);
  if (stop) stop.hidden = at < steps;
  const line = markLines();
  showOutput();
  showValues('locals', registers(run.hidden[at], run.hidden[at] + special(RL), registerName, stacked));
  showValues('hidden', callItems());
  showValues('memory', octasShown());
  showValues('globals', registers(special(RG), 256, (k) => registerName(k + special(RG)), (k) => k));
  showValues('specials', specials);
  tellStep();
  if ($('ring').open) showRing();
  // the layout is asked for once, after all that changes it
  reveal($('program'), line);
  for (const section of document.querySelectorAll('#state section')) reveal(section, section.querySelector('.new, mark'));
}

// ---- what is pressed

// to the next step that carries out a line, round the end
function goToNext({ addresses }) {
  const { at, pc, steps } = run;
  for (let k = 1; k <= steps; k++) {
    const step = (Math.min(at, steps - 1) + k) % steps;
    if (addresses.includes(pc[step])) return goTo(step);
  }
}

// to the step that made a value, and from there to the one that made the value before it
function goToMaker(place) {
  const maker = run.makerOf(place, run.at);
  goTo(maker && maker === run.at ? run.makerOf(place, maker - 1) : maker);
}

function onClick({ target }) {
  const [row, button] = [target.closest('tr'), target.closest('button')];
  const line = lines.find(({ tr }) => tr === row);
  if (button?.dataset.key) goTo(MOVES[button.dataset.key]());
  else if (!button && !getSelection().isCollapsed) return; // a text was marked
  else if (line) goToNext(line);
  else if (row?.step) goTo(row.step);
  else if (row && 'place' in row) goToMaker(row.place);
}

function onKey(event) {
  const move = MOVES[(event.shiftKey ? 'Shift' : '') + event.key];
  if (!move || event.ctrlKey || event.altKey || event.metaKey || event.target.type === 'number') return;
  event.preventDefault();
  goTo(move());
}

function showRun() {
  run = runOf(data);
  const changing = new Set(run.place.subarray(run.first[1]));
  specials = SPECIALS.map((name, place) => ({ name, place })).filter(({ place }) => changing.has(place));
  for (const [name, place] of run.numbers) {
    if (name[0] === 'l' || !changing.has(place)) continue;
    const address = addressOf(name) + (BigInt('tmpq'.indexOf(name[0])) << 61n);
    octas.push({ name: labelOf(address) || hexadecimal(address), place, address });
  }
  octas.sort((a, b) => (a.address < b.address ? -1 : 1));
  octas.forEach(({ place }, index) => indices.set(place, index));
  const { what, help } = data.outcome;
  if (data.end === 'stopped') stop = addNote(lineAt.get(run.pc[run.steps]), endOfRun(), [what, help]);
  for (const id of ['controls', 'told', 'state', 'keys']) $(id).hidden = false;
  $('output').parentNode.hidden = !data.output;
  $('slider').max = $('step').max = $('steps').textContent = run.steps;
  $('slider').oninput = $('step').onchange = ({ target }) => goTo(+target.value);
  $('ring').ontoggle = showRing;
  document.onclick = onClick;
  document.onkeydown = onKey;
  window.onhashchange = () => goTo(+location.hash.slice(1) || 0); // run.html#57 is opened at step 57
  window.onhashchange();
}

function showPage() {
  data = JSON.parse($('data').textContent);
  $('name').textContent = [data.name.replace(/.*\//, ''), ...data.arguments].join(' ');
  document.title = $('name').textContent + ': a program and its run';
  $('about').textContent = endOfRun();
  $('version').textContent = data.version;
  readSymbols();
  showProgram();
  data.faults.forEach(showFault);
  if (data.more) addNote(null, 'There are more faults than these.', []);
  const { what, help } = data.outcome;
  if (data.end === 'refused' && what) addNote(null, endOfRun(), [what, help]);
  const all = $('all');
  all.onchange = () => document.body.classList.toggle('all', all.checked);
  all.checked = innerWidth > 1400;
  all.onchange();
  if (data.start) showRun();
  else document.body.classList.add('refused');
}

if (typeof document === 'object') showPage();
