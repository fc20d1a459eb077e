// Takes the script of the page (crates/mmixview/page/script.js) in node, and goes through a run with it.
//
// usage: node checks/page.mjs DATA STEPS    DATA is a file with what `mmixview page --json` writes
//
// Its output is one line of JSON: `octas`, the addresses of the octas of memory that the records name, and `states`, for
// step 0, each multiple of STEPS and the last step: `step`; `written`, how many bytes of the output there were; `dump`,
// the lines of a dump, with rS and without octas that no record names. All are visited on, back, and in another order,
// which has to give the same.
import assert from 'node:assert/strict';
import fs from 'node:fs';
import path from 'node:path';

const page = path.join(import.meta.dirname ?? path.dirname(process.argv[1]), '../crates/mmixview/page/script.js');
const { runOf, SPECIALS, textOf, charactersOf } = new Function(
  fs.readFileSync(page, 'utf8') + '\nreturn { runOf, SPECIALS, textOf, charactersOf };',
)();

assert.equal(textOf('h\xc3\xa9\xe2\x82\xac\xf0\x9f\x8d\x80\n'), 'hé€🍀\n');
assert.equal(textOf('a\xff\xc3(\xe0\x80\x80\xed\xa0\x80'), 'a\\xff\\xc3(\\xe0\\x80\\x80\\xed\\xa0\\x80');
assert.equal(textOf('\xf5\0\x1b[\r'), '\\xf5\\x00\\x1b[\\x0d');
assert.equal(textOf('</script>&amp;\t\u00c2'), '</script>&amp;\t\\xc2');
assert.equal(charactersOf(0x48656c6c6f2c0a7fn), 'Hello,..');

const shown = (value) => '#' + value.toString(16).padStart(16, '0');

// the octas of memory that records name, in the order of their addresses: [address, place]
function octasOf(run) {
  const octas = [...run.numbers].filter(([name]) => name[0] !== 'l').map(([name, place]) => {
    return [BigInt('0x' + name.slice(1)) + (BigInt('tmpq'.indexOf(name[0])) << 61n), place];
  });
  return octas.sort(([a], [b]) => (a < b ? -1 : 1));
}

function dumpOf(run, octas) {
  const register = (k) => (k < 256 ? run.value[k] : undefined);
  const local = Number(run.value[20]);
  const hidden = Number(run.value[10] & 0xffffffn) >> 3;
  assert.equal(hidden, run.hidden[run.at]);
  const lines = SPECIALS.map((name, code) => `${name}=${shown(code === 8 ? BigInt(run.at) : run.value[code])}`);
  for (let k = 0; k < local; k++) {
    const place = run.numbers.get('l' + (hidden + k).toString(16));
    lines.push(`$${k}=${shown(run.value[place] ?? 0n)}`);
  }
  for (let k = Number(run.value[19]); k < 256; k++) lines.push(`$${k}=${shown(register(k))}`);
  for (const [address, place] of octas) {
    if (run.value[place]) lines.push(`M${shown(address)}=${shown(run.value[place])}`);
  }
  return lines;
}

// above the locals there are zeros
function checkEnd(run) {
  const most = Number(run.value[20]) + run.hidden[run.at];
  for (const [name, place] of run.numbers) {
    const isBeyond = name[0] === 'l' && parseInt(name.slice(1), 16) >= most;
    assert(!isBeyond || run.value[place] === 0n, `${name} at step ${run.at}`);
  }
}

const data = JSON.parse(fs.readFileSync(process.argv[2], 'utf8'));
const every = Number(process.argv[3]);
const run = runOf(data);
const octas = octasOf(run);
assert.equal(run.written[run.steps], data.output.length);
assert.equal(data.start.split(';').length, 2);
assert.equal(data.records.split(';').length, data.steps + 1);
const states = [];
for (let step = 0; step <= run.steps; step++) {
  if (step % every && step !== run.steps) continue;
  run.goTo(step);
  checkEnd(run);
  states.push({ step, written: run.written[step], dump: dumpOf(run, octas) });
}
for (const state of states.toReversed?.() ?? [...states].reverse()) {
  run.goTo(state.step);
  assert.deepEqual(dumpOf(run, octas), state.dump);
}
// from anywhere to anywhere
const { length } = states;
for (let k = 0; k < length; k++) {
  const state = states[(k * 7919) % length];
  run.goTo(state.step);
  assert.deepEqual(dumpOf(run, octas), state.dump);
}
// who made a value: the step changes it, and none between does
for (let place = 0; place < run.value.length; place += 7) {
  const maker = run.makerOf(place, run.steps);
  run.goTo(run.steps);
  const value = run.value[place];
  run.goTo(maker);
  assert.equal(run.value[place], value);
  if (maker > 0) {
    run.goTo(maker - 1);
    assert.notEqual(run.value[place], value);
  }
}
process.stdout.write(JSON.stringify({ octas: octas.map(([address]) => shown(address)), states }) + '\n');
