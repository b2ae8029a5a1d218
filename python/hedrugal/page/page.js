// The page. It turns what is typed into bytes, asks the server what they mean, and shows the answers. What bytes mean is decided by the
// library alone. Nothing here makes HTML of a text.

const $ = (id) => document.getElementById(id);
const MOST = 1 << 20; // The bytes that the server takes.
const LINKED = 4096; // The bytes that a link holds.
const SHOWN = 24; // The bytes of one item that are shown.
const COMPARED = 1 << 14; // The bytes that the server reads in pieces, too.
const PORTION = 50; // The rows of the table that are shown at once.
const COLORS = 5;

// ---- Elements and words

function el(name, attributes = {}, ...children) {
  const made = document.createElement(name);
  for (const [key, value] of Object.entries(attributes)) made.setAttribute(key, value);
  made.append(...children);
  return made;
}

const many = (count, what) => `${count.toLocaleString('en')} ${what}${count === 1 ? '' : 's'}`;
const wait = (count) => `${many(count, 'byte')} ${count === 1 ? 'waits' : 'wait'}`;

function set(id, text, ...classes) {
  $(id).textContent = text;
  if (classes.length) $(id).className = classes.join(' ');
}

// Calls once nothing has come for a moment; at once if nothing came for a second before.
function delayed(milliseconds, call) {
  let timer = 0, last = -Infinity;
  const now = () => {
    last = performance.now();
    call();
  };
  return () => {
    clearTimeout(timer);
    if (performance.now() - last > 1000) now();
    else timer = setTimeout(now, milliseconds);
  };
}

// ---- Bytes and their notations

const encoder = new TextEncoder();
const decoder = new TextDecoder('utf-8', { fatal: true });
const CONTROLS = ('NUL SOH STX ETX EOT ENQ ACK BEL BS TAB LF VT FF CR SO SI DLE DC1 DC2 DC3 DC4 NAK SYN ETB CAN EM SUB ESC FS GS RS US')
  .split(' ');
const WORDS = new Map([...CONTROLS.map((name, at) => [name, at]), ['SP', 32], ['DEL', 127], ['HT', 9]]);
const LETTERS = new Map(Object.entries({
  e: 27, E: 27, n: 10, r: 13, t: 9, b: 8, a: 7, f: 12, v: 11, '\\': 92, '^': 94, '"': 34, "'": 39,
}));

const fromHex = (digits) => Uint8Array.from(digits.match(/../g) ?? [], (pair) => parseInt(pair, 16));
const hexOf = (bytes) => Array.from(bytes, (byte) => byte.toString(16).padStart(2, '0'));
const isScalar = (code) => code < 0x110000 && (code < 0xd800 || code > 0xdfff);
const same = (one, other) => one.length === other.length && one.every((byte, at) => byte === other[at]);

// The length of an escape at a place of a text, and the byte or the code point that it stands for. Null if there is none.
function escapeAt(text, at) {
  const letter = text[at + 1] ?? '';
  if (text[at] === '^') {
    if (!/^[@-_?a-z]$/i.test(letter)) return { length: 1, byte: 94 };
    return { length: 2, byte: letter === '?' ? 127 : letter.charCodeAt(0) & 31 };
  }
  if (LETTERS.has(letter)) return { length: 2, byte: LETTERS.get(letter) };
  const digits = /^(?:x([0-9a-f]{2})|u\{([0-9a-f]{1,6})\}|u([0-9a-f]{4})|([0-7]{1,3}))/i.exec(text.slice(at + 1, at + 10));
  if (!digits) return null;
  const [whole, two, braced, four, octal] = digits, length = 1 + whole.length;
  const number = octal === undefined ? parseInt(two ?? braced ?? four, 16) : parseInt(octal, 8);
  if (two !== undefined || octal !== undefined) return number < 256 ? { length, byte: number } : null;
  return isScalar(number) ? { length, code: number } : null;
}

// The value of a hexadecimal digit, 16 or more for anything else.
function digitAt(text, at) {
  const code = text.charCodeAt(at), lower = code | 32;
  if (code >= 48 && code < 58) return code - 48;
  return lower > 96 && lower < 103 ? lower - 87 : 16;
}

// Text with escapes. What is no escape stands for itself, and is named in `wrong`.
function bytesOfText(text, wrong) {
  const room = new Uint8Array(3 * text.length);
  let length = 0, at = 0, literal = 0;
  const copy = () => { length += encoder.encodeInto(text.slice(literal, at), room.subarray(length)).written; };
  while (at < text.length) {
    const code = text.charCodeAt(at);
    if (code !== 92 && code !== 94) {
      at += 1;
      continue;
    }
    if (literal < at) copy();
    const high = digitAt(text, at + 2), low = digitAt(text, at + 3);
    const isByte = code === 92 && text.charCodeAt(at + 1) === 120 && high < 16 && low < 16;
    const found = isByte ? null : escapeAt(text, at);
    if (isByte) {
      room[length++] = 16 * high + low;
      at += 4;
    } else if (found?.byte !== undefined) {
      room[length++] = found.byte;
      at += found.length;
    } else if (found) {
      length += encoder.encodeInto(String.fromCodePoint(found.code), room.subarray(length)).written;
      at += found.length;
    } else {
      room[length++] = 92;
      if (wrong.length < 3) wrong.push(/^\\(?:u\{[^}]{0,6}\}|x.{0,2}|u.{0,4}|[0-7]{1,3}|.)?/su.exec(text.slice(at, at + 10))[0]);
      at += 1;
    }
    literal = at;
  }
  copy();
  return room.slice(0, length);
}

function bytesOfHex(text, wrong) {
  const digits = text.replace(/0x|\\x|[\s,]/gi, '');
  const other = /[^0-9a-f]/i.exec(digits);
  if (other) wrong.push(other[0]);
  else if (digits.length % 2) wrong.push(digits.at(-1));
  return other ? new Uint8Array() : fromHex(digits.slice(0, digits.length - digits.length % 2));
}

function bytesOfWords(text, wrong) {
  const bytes = [];
  for (const word of text.replace(/ESC(?![A-Za-z])/g, ' ESC ').split(/\s+/).filter(Boolean)) {
    if (WORDS.has(word)) bytes.push(WORDS.get(word));
    else for (const byte of bytesOfText(word, wrong)) bytes.push(byte);
  }
  return Uint8Array.from(bytes);
}

const NOTATIONS = {
  text: { read: bytesOfText, name: 'text and escapes', why: '' },
  hex: { read: bytesOfHex, name: 'hexadecimal', why: ', since all of it is hexadecimal digits, in pairs' },
  names: { read: bytesOfWords, name: 'words', why: ', since it begins with ESC' },
};

function notationOf(text) {
  if (/^\s*ESC(?![A-Za-z])/.test(text)) return 'names';
  // A last pair may lack a digit: it is on its way, or a fault.
  const isHex = [/^\s*(0x)?[0-9a-f]{2}([\s,]+(0x)?[0-9a-f]{2})+([\s,]+(0x)?[0-9a-f])?[\s,]*$/i, /^\s*1b([0-9a-f]{2})+[0-9a-f]?\s*$/i];
  return isHex.some((it) => it.test(text)) ? 'hex' : 'text';
}

function bytesOf(text, notation) {
  const used = notation === 'auto' ? notationOf(text) : notation, wrong = [];
  return { bytes: NOTATIONS[used].read(text, wrong), used, wrong };
}

// Text with escapes that stands for these bytes.
function textOf(bytes) {
  const parts = [];
  for (let at = 0; at < bytes.length;) {
    const byte = bytes[at];
    if (byte < 128) {
      at += 1;
      if (byte === 27) parts.push('\\e');
      else if (byte < 32 || byte === 127) parts.push(`^${String.fromCharCode(byte ^ 64)}`);
      else parts.push(byte === 92 ? '\\\\' : byte === 94 ? '\\^' : String.fromCharCode(byte));
      continue;
    }
    let character = '';
    for (let length = 2; length < 5 && !character; length++) {
      try { character = decoder.decode(bytes.subarray(at, at + length)); } catch { /* These bytes are no character. */ }
    }
    if ([...character].length !== 1) {
      parts.push(`\\x${hexOf([byte])}`);
      at += 1;
      continue;
    }
    at += encoder.encode(character).length;
    parts.push(/^[\p{L}\p{N}\p{P}\p{S}]$/u.test(character) ? character : `\\u{${character.codePointAt(0).toString(16)}}`);
  }
  return parts.join('');
}

const word = (byte) => byte === 27 ? 'ESC' : byte === 32 ? 'SP' : byte === 127 ? 'DEL' : byte < 32 ? `^${String.fromCharCode(byte + 64)}`
  : byte < 127 ? String.fromCharCode(byte) : `\\x${hexOf([byte])}`;

// ESC [ 1 ; 5 A
function sequence(bytes, most = SHOWN) {
  const words = Array.from(bytes.slice(0, most), word).join(' ');
  return bytes.length > most ? `${words} … ${many(bytes.length - most, 'byte')} more` : words;
}

function chip(byte, ...classes) {
  return el('span', { class: ['byte', ...classes].join(' ') }, el('b', {}, word(byte)), el('small', {}, hexOf([byte])[0]));
}

// Bytes as small boxes. A screen reader gets them as one text.
function chips(bytes, color = () => [], most = SHOWN) {
  const row = el('div', { class: 'bytes', role: 'img', 'aria-label': bytes.length ? sequence(bytes, most) : 'no bytes' });
  bytes.slice(0, most).forEach((byte, at) => row.append(chip(byte, ...color(at))));
  if (bytes.length > most) row.append(el('span', { class: 'quiet' }, `… ${many(bytes.length - most, 'byte')} more`));
  return row;
}

// The choice of a group of radio buttons.
const chosen = (name) => document.querySelector(`input[name="${name}"]:checked`).value;
const choose = (name, value) => { document.querySelector(`input[name="${name}"][value="${value}"]`).checked = true; };

// The fragment of an input: what is as at first isn't in it.
function fragmentOf(hex, cut = null, end = 'more', reading = chosen('reading')) {
  const words = new URLSearchParams({ bytes: hex });
  if (cut !== null) words.set('cut', cut);
  if (end !== 'more') words.set('end', end);
  if (reading !== 'table') words.set('reading', reading);
  return `#${words}`;
}

// A link that puts a sequence into the field, to be read as is chosen or as is said.
const linkTo = (hex, attributes = {}, reading = undefined) => el('a', {
  ...attributes, href: fragmentOf(hex, null, 'more', reading), 'data-hex': hex,
}, sequence(fromHex(hex)));

// A sequence, and what it is read as.
const example = ([hex, ...lines]) => [linkTo(hex, { class: 'sequence' }), ' is ', el('code', {}, lines.join(', '))];

// ---- The server

async function ask(path, words, body, signal) {
  const how = body ? { method: 'POST', body, headers: { 'Content-Type': 'application/octet-stream' }, signal } : { signal };
  const answer = await fetch(`api/${path}?${new URLSearchParams(words)}`, how);
  if (!answer.ok) throw new Error((await answer.text()).trim());
  return answer.json();
}

function failed(error) {
  if (error.name === 'AbortError') return;
  set('fault', error instanceof TypeError ? 'The server doesn’t answer. Does it still run?' : `The server says: ${error.message}.`);
}

// ---- The input and what it means

// The bytes, what comes after them (more, flush or paste), where they are cut, the example that no key took the place of, and the answers
// that are shown.
const state = { bytes: new Uint8Array(), end: 'more', cut: null, example: null, owners: [], lines: [], waits: null, table: null };
let asking = new AbortController();

const notation = () => chosen('notation');

function readField() {
  const { bytes, used, wrong } = bytesOf($('text').value, notation());
  const how = NOTATIONS[used];
  const why = notation() === 'auto' ? how.why : '';
  set('written-as', $('text').value ? `Written as ${how.name}${why}: ${many(bytes.length, 'byte')}.` : '');
  const names = wrong.map((part) => `‘${part}’`).join(', ');
  const isHex = used === 'hex';
  set('fault', !wrong.length ? '' : isHex ? `${names} is no pair of hexadecimal digits.` : `${names} is no escape, and stands for itself.`);
  $('text').setAttribute('aria-invalid', String(wrong.length > 0));
  return bytes;
}

function setBytes(bytes, end = 'more') {
  state.bytes = bytes;
  state.end = end;
  return show();
}

// Puts bytes into the field, in its notation.
function fill(bytes) {
  if (notation() === 'hex') $('text').value = hexOf(bytes).join(' ');
  else {
    $('text').value = textOf(bytes);
    if (notation() === 'names') choose('notation', 'auto');
    if (!same(bytesOf($('text').value, notation()).bytes, bytes)) choose('notation', 'text');
  }
  readField();
}

function showExample(text) {
  $('text').value = text;
  state.cut = null;
  state.example = text;
  setBytes(readField());
}

// The bytes to which those of a key are added: none while the field has an example as it was.
function bytesBefore() {
  const isExample = $('text').value === state.example;
  state.example = null;
  return isExample ? new Uint8Array() : state.bytes;
}

// The bytes that are compared. The server knows by one byte more that others follow.
const head = (bytes) => bytes.subarray(0, COMPARED + 1);

async function show() {
  asking.abort();
  asking = new AbortController();
  const { signal } = asking, { bytes, end } = state, reading = chosen('reading');
  showLink();
  if (bytes.length > MOST) {
    set('fault', `At most ${MOST.toLocaleString('en')} bytes can be read, and these are ${bytes.length.toLocaleString('en')}.`);
    return;
  }
  document.body.setAttribute('aria-busy', 'true');
  try {
    const read = await ask('read', { reading, end, first: 0 }, bytes, signal);
    showRead(read);
    const [reads] = await Promise.all([ask('reads', { reading, end }, head(bytes), signal), showCut(signal)]);
    showReads(reads);
    document.body.setAttribute('aria-busy', 'false');
  } catch (error) {
    failed(error);
  }
}

function showRead(read) {
  state.owners = [];
  state.lines = [];
  $('items').replaceChildren();
  const waiting = read.waits?.length ?? 0;
  const flushed = state.end === 'more' ? '' : ' No more bytes come.';
  set('count', !read.bytes ? 'Type bytes, press keys, or try an example.'
    : `${many(read.bytes, 'byte')}: ${many(read.events, 'event')}${waiting ? `, and ${wait(waiting)}` : ', and nothing waits'}.${flushed}`);
  addItems(read);
  state.waits = read.waits;
  showWaits(read.waits);
  $('flushed').hidden = state.end === 'more';
}

// What an event is written as, if these aren't the bytes that were read.
function writtenAs({ bytes, length, why }, read) {
  if (why) return el('span', { class: 'written quiet' }, `isn’t written: ${why}`);
  const first = fromHex(bytes), more = length - first.length;
  if (!more && same(first, read)) return el('span', { class: 'written quiet' }, 'written as it is');
  return el('span', { class: 'written quiet' }, 'written as ', el('span', { class: 'sequence' }, sequence(first)),
    more ? ` … ${many(more, 'byte')} more` : '');
}

function addItems(read) {
  let { at } = read;
  read.items.forEach(([length, line, glyphs, press, written], number) => {
    const place = read.first + number, color = `c${place % COLORS}`;
    if (place === read.flushed) $('items').append(el('li', { class: 'mark' }, 'flush'));
    const event = el('span', { class: 'event' }, line);
    if (press) event.append(' = ', el('bdi', { class: 'press' }, press));
    if (glyphs && !press.includes(glyphs)) event.append(' ', el('bdi', { class: 'glyphs quiet' }, glyphs));
    const bytes = state.bytes.subarray(at, at + length);
    $('items').append(el('li', { class: color }, chips(bytes), event, writtenAs(written, bytes)));
    for (let each = at; each < at + length && each < 512; each++) state.owners[each] = color;
    state.lines.push(press ? `${line} = ${press}` : line);
    at += length;
  });
  const listed = read.first + read.items.length, left = read.events - listed;
  $('more-items').replaceChildren();
  if (left > 0) {
    const button = el('button', { type: 'button' }, `Show the next ${Math.min(left, 300)} of ${many(left, 'more event')}`);
    const words = { reading: chosen('reading'), end: state.end, first: listed };
    button.onclick = () => ask('read', words, state.bytes, asking.signal).then((next) => {
      const before = $('items').lastElementChild;
      addItems(next);
      before.nextElementSibling?.setAttribute('tabindex', '-1');
      before.nextElementSibling?.focus();
    }).catch(failed);
    $('more-items').append(button);
  } else if (read.waits) {
    const rest = state.bytes.subarray(state.bytes.length - read.waits.length);
    $('items').append(el('li', { class: 'hatched' }, chips(rest), el('span', { class: 'event' }, 'waits for more bytes')));
  }
}

// Why bytes wait, in paragraphs. Each is a list of texts and elements.
function whyEscape(waits, rest) {
  const isAlone = rest.length === 1;
  return [
    [isAlone ? 'The Escape key sends this byte, and nothing else. But it is also the first byte of '
      : 'Escape with Alt sends these two bytes, and nothing else. But they also begin ',
    `${many(waits.count, 'longer sequence')}, and the next byte may go on with one of them:`],
    waits.named,
    ['A character after it is that character with Alt: ', ...example(waits.alt), '.'],
    waits.mouse && ['It may become a mouse report: ', ...example(waits.mouse), '.'],
    chosen('reading') !== 'table' && [`A reply or a report may begin with ${isAlone ? 'it' : 'the second one'}, too.`],
    ['So only the next byte tells, or a pause. A program waits for some 50 ms, and flushes if nothing came.'],
  ];
}

const BEGUN = {
  csi: 'a control sequence', osc: 'a command (OSC)', dcs: 'a device control string (DCS)', apc: 'an application command (APC)',
  report: 'a key report',
};

function whySequence(waits) {
  const keys = waits.count === 1 ? 'this key' : `one of ${many(waits.count, 'key')}`;
  const begun = BEGUN[waits.begins], half = begun && !waits.count ? 'a reply or a report' : 'a key';
  const mouse = waits.count || begun ? 'They may become a mouse report, too: ' : 'They begin a mouse report, whose end is still to come: ';
  const other = waits.count ? `Or they begin ${begun} that the table doesn’t have.`
    : `They are the beginning of ${begun}, whose end is still to come.`;
  return [
    waits.count && [`More bytes may make ${keys} of them:`], waits.count && waits.named,
    begun && [other],
    waits.mouse && [mouse, ...example(waits.mouse), '.'],
    [`They may be half of ${half} on a slow line, which a flush breaks. So a program waits a second from their first byte on, and 100 ms if they are ESC and one byte.`],
  ];
}

function whyString(waits) {
  return [
    [`They are the beginning of ${BEGUN[waits.begins]}, whose end is still to come. Until then no byte is a key, and neither is a control character.`],
    ['The rest may come over a slow line, and after a flush it would be typed text. So a program flushes them only after some seconds.'],
  ];
}

function whyCharacter(_, rest) {
  const came = rest.length === 1 ? 'the first one has' : 'some have';
  return [
    [`In UTF-8 a character may have several bytes. Here ${came} arrived, and the rest is still to come.`],
    ['A flush would make U+FFFD of half a character, so a program never flushes one before the end of its input.'],
  ];
}

function whyPaste(waits) {
  return [
    [`A paste was begun, with ${many(waits.text, 'byte')} of text so far. It becomes one event when its end arrives: `,
      el('span', { class: 'sequence' }, sequence(fromHex(waits.end))), '.'],
    ['No flush ends a paste, and a pause only if the program has set a limit in time for it. A long paste can be taken in parts.'],
  ];
}

const WHY = { Escape: whyEscape, Sequence: whySequence, String: whyString, Character: whyCharacter, Paste: whyPaste };

function paragraph(part) {
  if (!Array.isArray(part[0])) return el('p', {}, ...part);
  return el('ul', {}, ...part.map((named) => el('li', {}, ...example(named))));
}

function showWaits(waits) {
  $('waits').hidden = !waits;
  if (!waits) return;
  const rest = state.bytes.subarray(state.bytes.length - waits.length);
  const heading = el('span', {}, `Why ${waits.length === 1 ? 'this byte waits' : `these ${many(waits.length, 'byte')} wait`}`);
  const bytes = el('span', { class: 'hatched bytes', role: 'img', 'aria-label': sequence(rest, 12) },
    ...Array.from(rest.slice(0, 12), (byte) => chip(byte)));
  $('waits-heading').replaceChildren(heading, bytes);
  $('why').replaceChildren(...WHY[waits.kind](waits, rest).filter(Boolean).map(paragraph));
  if (waits.count > waits.named?.length) {
    const find = el('button', { type: 'button' }, `See all ${waits.count.toLocaleString('en')} in the table`);
    find.onclick = () => searchBytes(waits.with_alt ? rest.subarray(1) : rest);
    $('why').insertBefore(el('p', {}, find), $('why').children[2] ?? null);
  }
  const isPaste = waits.kind === 'Paste';
  $('flush').textContent = isPaste ? 'End the paste here' : 'Flush: no more bytes come';
  const more = waits.emits - waits.flushed.length;
  const others = more > 0 ? `, and ${many(more, 'more event')}.` : '.';
  $('flush-means').replaceChildren('That emits ', el('code', {}, waits.flushed.join(', ')), others);
}

function flush(end, focus) {
  const isWaiting = state.end === 'more';
  setBytes(state.bytes, isWaiting ? end : 'more').then(() => { if (!$(focus).closest('[hidden]')) $(focus).focus(); });
}

// What each reading is for, and the parser of a report.
const READINGS = {
  table: { means: 'A Parser of Dialect.TERMWIZ reads so, as termwiz does. Replies and reports are typed text to it.' },
  extended: { means: 'A Parser reads so: keys in any mode, replies and reports.', parser: 'Parser, Dialect::Extended' },
};

// Says what the reading is for. The links of the page keep it.
function showReading() {
  set('reading-means', READINGS[chosen('reading')].means);
  for (const link of document.querySelectorAll('a[data-hex]')) link.href = fragmentOf(link.dataset.hex);
}

// ---- The same bytes in two reads, and in reads of one byte

function verdict(id, answer, how) {
  const text = answer.same ? `✓ ${how}: the same events.` : `✗ ${how}: OTHER EVENTS. This is a bug.`;
  set(id, answer.bytes ? text : '', 'verdict', answer.same ? 'good' : 'bad');
}

function colorAt(at) {
  if (state.owners[at]) return [state.owners[at]];
  return state.waits && at >= state.bytes.length - state.waits.length ? ['hatched'] : [];
}

function listOf(read) {
  const more = read.events - read.lines.length;
  return el('ul', {}, ...read.lines.map((line) => el('li', { class: 'event' }, line)),
    ...(more > 0 ? [el('li', { class: 'quiet' }, `and ${many(more, 'more event')}`)] : []));
}

async function showCut(signal) {
  const { bytes, end } = state, at = state.cut ?? bytes.length >> 1;
  const cut = await ask('cut', { reading: chosen('reading'), end, at }, head(bytes), signal);
  const slider = $('cut');
  slider.max = String(cut.bytes);
  slider.value = String(cut.at);
  slider.disabled = !cut.bytes;
  slider.setAttribute('aria-valuetext', `after byte ${cut.at} of ${cut.bytes}`);
  set('cut-at', cut.bytes ? `${cut.at} of ${cut.bytes}` : '');
  const pieces = [[0, cut.at], [cut.at, cut.bytes]];
  const hatched = cut.at - cut.length;
  $('two').replaceChildren(...(cut.bytes ? pieces.map(([from, to], number) => {
    const shown = number ? from : Math.max(from, to - SHOWN), before = shown - from;
    return el('div', { class: 'read', role: 'group', 'aria-label': `Read ${number + 1}` },
      el('h4', {}, `Read ${number + 1}: ${many(to - from, 'byte')}${before ? `, the last ${SHOWN} of them` : ''}`),
      chips(bytes.subarray(shown, to), (place) => (!number && shown + place >= hatched ? ['hatched'] : colorAt(shown + place))),
      listOf(cut.reads[number]),
      el('p', { class: 'quiet' }, number ? '' : cut.length ? `${wait(cut.length)} for the second read.` : 'Nothing waits at the cut.'));
  }) : []));
  verdict('two-same', cut, 'Two reads');
}

function showReads(reads) {
  set('compared', reads.bytes < state.bytes.length ? `Compared are the first ${reads.bytes.toLocaleString('en')} bytes.` : '');
  $('steps').replaceChildren(...reads.steps.map(([waiting, ...lines], at) => el('li', {},
    chip(state.bytes[at], ...colorAt(at)), ...lines.map((line) => el('span', { class: 'event' }, line)),
    ...(waiting ? [el('span', { class: 'event quiet' }, waiting === 1 ? '1 waits' : `${waiting} wait`)] : []))));
  const flushed = reads.flushed.map((line) => el('span', { class: 'event' }, line));
  if (flushed.length) $('steps').append(el('li', {}, el('b', {}, 'flush'), ...flushed));
  const left = reads.bytes - reads.steps.length;
  set('more-steps', left > 0 ? `and ${many(left, 'more read')}` : '');
  verdict('one-same', reads, many(reads.bytes, 'read') + ' of one byte');
}

// ---- The link

// A link is made when it is copied. The page's own address never gets what is typed, since a browser keeps addresses.
const link = () => location.origin + location.pathname + fragmentOf(hexOf(state.bytes).join(''), state.cut, state.end);

function showLink() {
  const fits = state.bytes.length <= LINKED;
  $('copy').hidden = !fits || !state.bytes.length;
  set('copied', fits ? '' : `A link holds at most ${LINKED.toLocaleString('en')} bytes.`);
}

function loadLink(hash) {
  const words = new URLSearchParams(hash.slice(1)), hex = words.get('bytes') ?? '';
  if (!/^([0-9a-f]{2})*$/i.test(hex)) {
    set('fault', 'The link’s bytes are no pairs of hexadecimal digits.');
    return false;
  }
  if (!hex) return false;
  const cut = words.get('cut') ?? '', end = words.get('end') ?? '', reading = words.get('reading') ?? '';
  state.cut = /^[0-9]{1,8}$/.test(cut) ? Number(cut) : null;
  choose('reading', Object.hasOwn(READINGS, reading) ? reading : 'table');
  showReading();
  state.example = null;
  fill(fromHex(hex));
  setBytes(fromHex(hex), ['flush', 'paste'].includes(end) ? end : 'more');
  return true;
}

function follow(hash) {
  if (loadLink(hash)) $('text').focus();
}

function report() {
  const after = { more: 'more bytes may come', flush: 'a flush', paste: 'a flush, and the end of the open paste' }[state.end];
  const cut = state.cut === null ? 'at once' : `cut after byte ${state.cut}`;
  const { parser } = READINGS[chosen('reading')];
  return [`bytes: ${hexOf(state.bytes).join(' ')}`, `then: ${after}`, `read: ${cut}`, ...(parser ? [`by: ${parser}`] : []), ...state.lines,
    ...(state.waits ? [`waiting ${state.waits.length}`] : []), `hedrugal ${state.table?.version ?? ''}`, ''].join('\n');
}

function copy(text, what) {
  navigator.clipboard.writeText(text).then(() => set('copied', `${what} was copied.`), () => set('copied', 'The browser refuses to copy.'));
}

// ---- Keys

const KEYS = new Map(Object.entries({
  ArrowUp: 'UpArrow', ArrowDown: 'DownArrow', ArrowLeft: 'LeftArrow', ArrowRight: 'RightArrow', ContextMenu: 'Applications',
  AudioVolumeMute: 'VolumeMute', AudioVolumeDown: 'VolumeDown', AudioVolumeUp: 'VolumeUp', MediaTrackNext: 'MediaNextTrack',
  MediaTrackPrevious: 'MediaPrevTrack',
}));
const LONE = new Set(['Shift', 'Control', 'Alt', 'Meta', 'AltGraph', 'OS', 'Fn', 'Dead', 'Process', 'Unidentified']);
const MODES = ['encoding', 'cursor', 'newline', 'level'];
const MODE_WORDS = ['the encoding', 'application cursor keys', 'newline mode', 'modifyOtherKeys'];
const MODE_NAMES = [['xterm', 'CSI u'], ['cursor keys normal', 'application cursor keys'], ['newline mode off', 'newline mode'],
  ['modifyOtherKeys off', 'modifyOtherKeys 1', 'modifyOtherKeys 2']];

const codeName = (character) => `U+${character.codePointAt(0).toString(16).toUpperCase().padStart(4, '0')}`;
const modesNow = () => [Number($('encoding').value), Number($('cursor').checked), Number($('newline').checked), Number($('level').value)];
const modeIndex = ([encoding, cursor, newline, level]) => ((encoding * 2 + cursor) * 2 + newline) * 3 + level;
const allModes = MODE_NAMES.reduce((modes, names) => modes.flatMap((mode) => names.map((_, at) => [...mode, at])), [[]]);

function keyPressed(event) {
  if ([...event.key].length === 1) return codeName(event.key);
  return state.table.keys.find((name) => name === (KEYS.get(event.key) ?? event.key));
}

let pressing = Promise.resolve();
function press(event) {
  if (event.key === 'Tab' || event.isComposing || !state.table) return;
  event.preventDefault();
  const isGraph = event.getModifierState('AltGraph');
  const held = [
    event.shiftKey && 'SHIFT', event.altKey && !isGraph && 'ALT', event.ctrlKey && !isGraph && 'CTRL', event.metaKey && 'SUPER',
  ].filter(Boolean);
  const key = LONE.has(event.key) ? undefined : keyPressed(event);
  if (!key) {
    if (!['Shift', 'Control', 'Alt', 'Meta', 'AltGraph'].includes(event.key)) {
      set('pressed', `The browser calls this key ‘${event.key}’, and the library has none of that name.`);
    }
    return;
  }
  const modifiers = held.join('+') || 'NONE';
  pressing = pressing.then(() => ask('encode', { name: key, modifiers })).then((answer) => {
    const [{ line, sent: texts }] = answer.keys, [hex = ''] = texts[modeIndex(modesNow())] ?? [], sent = fromHex(hex);
    set('pressed', sent.length ? `${line} sends ${sequence(sent)}` : `${line} sends nothing in these modes`);
    const before = bytesBefore(), bytes = new Uint8Array(before.length + sent.length);
    bytes.set(before);
    bytes.set(sent, before.length);
    fill(bytes);
    setBytes(bytes);
    $('key').value = answer.keys[0].press || key;
    asked += 1;
    showSent(answer);
    showOnKeyboard(answer.keys);
    if (location.hash.startsWith('#key=')) showAddress('');
  }).catch(failed);
}

let asked = 0;
// Shows what the named key sends, and returns the keys of the answer. None if the name is wrong, or if another one came meanwhile.
async function showKey() {
  const name = $('key').value, mine = ++asked;
  const fault = (words) => {
    set('key-fault', words);
    $('key').setAttribute('aria-invalid', String(words !== ''));
  };
  try {
    const answer = await ask('encode', { name });
    if (mine !== asked) return null;
    fault('');
    showSent(answer);
    return answer.keys;
  } catch (error) {
    if (mine === asked) fault(`${error.message}.`);
    return null;
  }
}

// A key that is named or picked is in the page's address, which leads back to it. No key is there that is pressed in the box.
const addressOf = (name) => (name ? `#${new URLSearchParams({ key: name })}` : location.pathname);
const showAddress = (name) => history.replaceState(null, '', addressOf(name));

async function loadKey(hash) {
  const name = new URLSearchParams(hash.slice(1)).get('key');
  if (name) $('key').value = name;
  showOnKeyboard(await showKey() ?? []);
  if (name) $('keys-heading').scrollIntoView();
}

async function nameKey() {
  const keys = await showKey();
  if (!keys) return;
  showOnKeyboard(keys);
  showAddress($('key').value);
}

const showPicked = delayed(150, async () => {
  if (await showKey()) showAddress($('key').value);
});

function pickKey() {
  const name = nameOfPicked();
  if (!name) return;
  $('key').value = name;
  asked += 1;
  showPicked();
}

// ---- The keyboard

// The rows of a keyboard of the United States, in two blocks. Behind a key is the sign that Shift makes of it. A number is a gap.
const KEYBOARD = [[
  'escape 4 f1 f2 f3 f4 2 f5 f6 f7 f8 2 f9 f10 f11 f12',
  '`~ 1! 2@ 3# 4$ 5% 6^ 7& 8* 9( 0) -_ =+ backspace',
  'tab q w e r t y u i o p [{ ]} \\|',
  '7 a s d f g h j k l ;: \'" enter',
  'SHIFT z x c v b n m ,< .> /? 11',
  'CTRL SUPER ALT space menu 6',
], ['printscreen pause 4', 'insert home pageup', 'delete end pagedown', '60', '4 up 4', 'left down right']];
// How wide keys are, in quarters of a letter's key.
const WIDTHS = { backspace: 8, tab: 6, '\\|': 6, enter: 9, SHIFT: 9, CTRL: 6, SUPER: 6, ALT: 6, space: 30, menu: 6 };
// What stands on a key, if that isn't its name, and what a screen reader calls a sign.
const CAPS = {
  escape: 'Esc', backspace: '⌫', printscreen: 'Print Screen', pageup: 'Page Up', pagedown: 'Page Down', up: '↑', down: '↓', left: '←', right: '→',
};
const SPOKEN = {
  '`': 'grave accent', '-': 'hyphen', '=': 'equals sign', '[': 'left bracket', ']': 'right bracket', '\\': 'backslash', ';': 'semicolon',
  "'": 'apostrophe', ',': 'comma', '.': 'period', '/': 'slash',
};

const keysDrawn = () => [...$('keyboard').querySelectorAll('[type=radio]')];
const modifiersDrawn = () => [...$('keyboard').querySelectorAll('[type=checkbox]')];

function drawnKey(word) {
  const [key, sign] = /^.[^a-z0-9]$/.test(word) ? word : [word];
  const cap = CAPS[key] ?? (key.length > 1 ? key[0].toUpperCase() + key.slice(1).toLowerCase() : key);
  const how = state.table.modifiers.includes(key) ? { type: 'checkbox' } : { type: 'radio', name: 'picked' };
  const input = el('input', { ...how, value: key, 'aria-label': SPOKEN[key] ?? (cap.length > 1 ? cap : key) });
  if (sign) input.dataset.sign = sign;
  return el('label', { class: 'key' }, input, el('span', {}, ...(sign ? [el('small', {}, sign)] : []), cap));
}

function drawn(word) {
  const gap = Number(/^\d+$/.exec(word)), it = gap ? el('span', { class: 'gap' }) : drawnKey(word);
  it.style.setProperty('--width', gap || WIDTHS[word] || 4);
  return it;
}

function drawKeyboard() {
  const blocks = KEYBOARD.map((rows) => el('div', {}, ...rows.map((row) => el('div', { class: 'row' }, ...row.split(' ').map(drawn)))));
  $('keyboard').append(...blocks);
}

// Shows on the keyboard what was named, if it is one press of a key that is there.
function showOnKeyboard(keys) {
  const [, prefix, name] = /^((?:[a-z]+\+)*)(.*)$/su.exec(keys.length === 1 ? keys[0].press : '');
  const held = prefix.toUpperCase().split('+'), isCapital = /^[A-Z]$/.test(name);
  const wanted = isCapital ? name.toLowerCase() : name;
  const key = keysDrawn().find((it) => it.value === wanted || it.dataset.sign === name);
  if (isCapital || key?.dataset.sign === name) held.push('SHIFT');
  for (const it of keysDrawn()) it.checked = it === key;
  for (const it of modifiersDrawn()) it.checked = key !== undefined && held.includes(it.value);
}

// The name of the key that is picked on the keyboard, with what is held. Shift is in a sign that it makes.
function nameOfPicked() {
  const key = keysDrawn().find((it) => it.checked), isHeld = (name) => modifiersDrawn().some((it) => it.checked && it.value === name);
  const sign = isHeld('SHIFT') ? key?.dataset.sign : undefined;
  const held = ['SUPER', 'CTRL', 'ALT', 'SHIFT'].filter((name) => isHeld(name) && !(sign && name === 'SHIFT'));
  return key && [...held.map((name) => name.toLowerCase()), sign ?? key.value].join('+');
}

// The arrow keys up and down go to the nearest key of another row. Those to the sides go on in the row, as in any group of radio buttons.
function goToRow(event) {
  const way = { ArrowUp: -1, ArrowDown: 1 }[event.key], from = event.target.getBoundingClientRect();
  if (!way || event.target.type !== 'radio') return;
  event.preventDefault();
  const far = (it) => {
    const to = it.getBoundingClientRect(), down = way * (to.y - from.y);
    return down > 5 ? 2 * down + Math.abs(to.x + to.width / 2 - from.x - from.width / 2) : Infinity;
  };
  const nearest = keysDrawn().reduce((one, other) => (far(other) < far(one) ? other : one));
  if (far(nearest) === Infinity) return;
  nearest.focus();
  nearest.click();
}

// ---- What recorded terminals send

const MODE_KINDS = { mok: 'modifyOtherKeys', kitty: 'Kitty’s flags' };
const APPLICATION = { decckm: 'cursor keys', deckpam: 'keypad', 'decckm+deckpam': 'cursor keys and keypad' };

// The modes behind a terminal's name. It starts in `default`. Application modes are named where they differ from that, and both together
// where one alone doesn't.
function modesText(modes) {
  const isStart = modes.includes('default'), isAlone = modes.includes('decckm') || modes.includes('deckpam');
  const application = Object.keys(APPLICATION).filter((it) => modes.includes(it) && !(isAlone && it === 'decckm+deckpam'));
  const texts = application.length && !isStart ? [`application ${application.map((it) => APPLICATION[it]).join(', ')}`] : [];
  for (const [start, kind] of Object.entries(MODE_KINDS)) {
    const those = modes.filter((it) => it.startsWith(start)).map((it) => it.slice(start.length));
    if (those.length) texts.push(`${kind} ${those.join(', ')}`);
  }
  return texts.length ? `, ${isStart ? 'also ' : ''}${texts.join('; ')}` : '';
}

function recordedRow([terminal, modes, [hex, , press, isRight], others]) {
  return el('tr', {}, el('th', { scope: 'row' }, terminal, el('span', { class: 'quiet' }, modesText(modes))),
    el('td', {}, linkTo(hex, {}, 'extended')), el('td', {}, `${isRight ? '✓' : '≠'} ${press}`),
    el('td', {}, others.join(', ') || 'no other'));
}

// How well terminals tell a press from others.
const APART = {
  never: 'can’t tell it from another press', some: 'can tell it from others in some modes alone',
  always: 'can tell it from others in each mode', nothing: 'sent nothing for it, or did a command of their own',
};

function howApart(rows) {
  const apart = rows.filter(([, , , others]) => !others.length);
  if (!rows.length) return 'nothing';
  return apart.length === rows.length ? 'always' : apart.length ? 'some' : 'never';
}

function apartWords({ press, line, recorded }) {
  const all = state.table.terminals, how = new Map(all.map((it) => [it, howApart(recorded.filter(([name]) => name === it))]));
  const told = Object.entries(APART).map(([name, words]) => {
    const those = all.filter((it) => how.get(it) === name);
    return those.length ? `${those.length} ${words}: ${those.join(', ')}. ` : '';
  });
  return el('p', {}, el('b', {}, `${press || line} in ${all.length} terminals.`), ' ',
    recorded.length ? told.join('') : 'No terminal was recorded with it.');
}

function headOf(...names) {
  return el('thead', {}, el('tr', {}, ...names.map((name) => el('th', { scope: 'col' }, name))));
}

// The rows of each key of a chord, under its name if there are several.
function bodies(keys, rows) {
  const heading = (key) => el('tr', {}, el('th', { scope: 'rowgroup', colspan: 4 }, key.press));
  return keys.map((key) => el('tbody', {}, ...(keys.length > 1 ? [heading(key)] : []), ...rows(key)));
}

function showRecorded(keys) {
  $('apart').replaceChildren(...keys.map(apartWords));
  $('recorded').closest('.wide').hidden = !keys.some((key) => key.recorded.length);
  $('recorded').replaceChildren(headOf('Terminal and modes', 'Bytes', 'Read as', 'Also sent for'),
    ...bodies(keys, (key) => key.recorded.map(recordedRow)));
}

// ---- What a key sends in every mode

// Which of the modes change what a key sends.
function mattersTo(hex) {
  const without = (mode, at) => mode.map((value, place) => (place === at ? 0 : value));
  return MODES.map((_, at) => allModes.some((mode) => hex(mode) !== hex(without(mode, at))));
}

// A row for the modes in which a key sends a text. A key that they can't say has none.
function sentRow(words, text, isNow, reading) {
  const [hex, line, press, isSame] = text ?? [];
  return el('tr', isNow ? { class: 'now' } : {}, el('th', { scope: 'row' }, words),
    el('td', {}, hex ? linkTo(hex, {}, reading) : text ? 'nothing' : 'can’t be sent'),
    el('td', {}, line ?? ''),
    el('td', {}, !hex ? '' : isSame ? `✓ ${press}` : `≠ ${press}`));
}

function modeRows(key) {
  const hex = (mode) => key.sent[modeIndex(mode)]?.[0], matters = mattersTo(hex), now = modesNow();
  const rows = allModes.filter((mode) => mode.every((value, at) => matters[at] || value === 0));
  return rows.map((mode) => {
    const isNow = mode.every((value, at) => !matters[at] || value === now[at]);
    const words = mode.map((value, at) => (matters[at] ? MODE_NAMES[at][value] : '')).filter(Boolean).join(', ') || 'all 24 modes';
    return sentRow(words + (isNow && rows.length > 1 ? ' (chosen above)' : ''), key.sent[modeIndex(mode)], isNow, 'extended');
  });
}

// Flags under which a key sends the same bytes have one row.
function flagRows(key) {
  const rows = new Map();
  key.kitty.forEach((text, at) => {
    const row = rows.get(text?.[0]) ?? { text, flags: [] };
    row.flags.push(state.table.flags[at]);
    rows.set(text?.[0], row);
  });
  const names = (flags) => (flags.length === state.table.flags.length ? 'Kitty’s protocol' : `Kitty’s flags ${flags.join(' or ')}`);
  return [...rows.values()].map(({ text, flags }) => sentRow(names(flags), text, false, 'extended'));
}

function sentWords(key) {
  if (key.sent.every((text) => !text)) return `${key.line} can be sent by Kitty’s protocol alone.`;
  const texts = new Set(key.sent.map((text) => text?.[0])), matters = mattersTo((mode) => key.sent[modeIndex(mode)]?.[0]);
  if (texts.size === 1) return `${key.line} sends the same bytes in all 24 modes.`;
  return `${key.line} sends ${many(texts.size, 'different text')} in 24 modes, by ${MODE_WORDS.filter((_, at) => matters[at]).join(' and ')}.`;
}

function showSent(answer) {
  state.sent = answer;
  showRecorded(answer.keys);
  set('key-count', answer.keys.map(sentWords).join(' '));
  $('sent').replaceChildren(headOf('Modes', 'Bytes', 'The library reads', 'Read back as'),
    ...bodies(answer.keys, (key) => [...modeRows(key), ...flagRows(key)]));
  const names = modesNow().map((value, at) => (value ? MODE_NAMES[at][value] : '')).filter(Boolean);
  set('modes-now', names.length ? names.join(', ') : 'xterm, all off');
}

// ---- The table of sequences

const SAME_WORDS = new Map(Object.entries({
  control: 'ctrl', meta: 'alt', option: 'alt', esc: 'escape', del: 'delete', ins: 'insert', return: 'enter', pgup: 'pageup',
  pgdn: 'pagedown',
}));
let found = [], listed = 0;

function wordsOfRow([, key, modifiers]) {
  const words = [key, ...key.split(/(?<=[a-z])(?=[A-Z])/), ...modifiers.split('+')];
  if (key.startsWith('U+')) words.push(String.fromCodePoint(parseInt(key.slice(2), 16)), ...(key === 'U+0020' ? ['space'] : []));
  return new Set(words.map((each) => each.toLowerCase()));
}

function search(query) {
  const { rows, words } = state.table, text = query.trim();
  if (!text) return { hits: rows, how: '' };
  if (/^[\\^]/.test(text) || notationOf(text) !== 'text') {
    const { bytes } = bytesOf(text, notationOf(text)), hex = hexOf(bytes).join('');
    return { hits: rows.filter((row) => row[0].startsWith(hex)), how: `with bytes that begin with ${sequence(bytes)}` };
  }
  if (/[^\w+\s-]/.test(text) && text.replace(/\s/g, '').length > 1) {
    const bytes = encoder.encode(text.replace(/\s/g, '')), hex = hexOf(bytes).join('');
    const has = (row) => row.match(/../g).join(' ').includes(hex.match(/../g).join(' '));
    return { hits: rows.filter((row) => has(row[0])), how: `with the bytes ${sequence(bytes)} in them` };
  }
  const wanted = text.toLowerCase().split(/[\s+]+/).filter((each) => each).map((each) => SAME_WORDS.get(each) ?? each);
  // A word that no row has is the beginning of one.
  const tests = wanted.map((each) => {
    const isWhole = words.some((row) => row.has(each));
    return (row) => (isWhole ? row.has(each) : [...row].some((it) => it.startsWith(each)));
  });
  const how = `with ${wanted.length > 1 ? 'the words' : 'the word'} ${wanted.join(' and ')}`;
  return { hits: rows.filter((_, at) => tests.every((test) => test(words[at]))), how };
}

function showFound() {
  const { hits, how } = search($('find').value);
  found = hits;
  listed = 0;
  const all = many(state.table.rows.length, 'row');
  set('found', how ? `${hits.length.toLocaleString('en')} of ${all} ${how}.` : `${all}.`);
  const heads = ['Bytes', 'Key'].map((name) => el('th', { scope: 'col' }, name));
  $('rows').replaceChildren(el('thead', {}, el('tr', {}, ...heads)), el('tbody'));
  addRows();
}

function addRows() {
  const body = $('rows').tBodies[0];
  for (const [hex, key, modifiers] of found.slice(listed, listed + PORTION)) {
    const isShown = /^U\+00[2-7]/.test(key) && key !== 'U+007F';
    const glyph = !isShown ? '' : key === 'U+0020' ? 'space' : String.fromCodePoint(parseInt(key.slice(2), 16));
    body.append(el('tr', {}, el('td', {}, linkTo(hex)), el('td', {}, `${key} ${modifiers} `, el('span', { class: 'quiet' }, glyph))));
  }
  listed = Math.min(found.length, listed + PORTION);
  $('rows').closest('.wide').hidden = !found.length;
  $('more-rows').replaceChildren();
  if (listed < found.length) {
    const left = found.length - listed;
    const button = el('button', { type: 'button' }, `Show the next ${Math.min(PORTION, left)} of ${many(left, 'more row')}`);
    button.onclick = () => {
      const first = listed;
      addRows();
      body.rows[first].querySelector('a').focus();
    };
    $('more-rows').append(button);
  }
}

function searchBytes(bytes) {
  $('find').value = Array.from(bytes, word).join(' ');
  showFound();
  $('find').focus();
}

// Control characters that are pasted as such become escapes: a field doesn't show them, and a browser lays out many of them slowly.
function paste(event) {
  const text = event.clipboardData?.getData('text/plain') ?? '';
  if (!/[\0-\x08\v-\x1f\x7f]/.test(text)) return;
  event.preventDefault();
  const caret = (it) => `^${String.fromCharCode(it.charCodeAt(0) ^ 64)}`;
  const shown = text.replace(/[\\^]/g, '\\$&').replace(/\x1b/g, '\\e').replace(/[\0-\x1f\x7f]/g, caret);
  const field = $('text');
  field.setRangeText(shown, field.selectionStart, field.selectionEnd, 'end');
  showTyped();
}

// ---- What the user does

function start(table) {
  state.table = { ...table, words: table.rows.map(wordsOfRow) };
  set('version', table.version);
  $('key-names').replaceChildren(...table.keys.map((name) => el('option', { value: name })));
  drawKeyboard();
  showFound();
  loadKey(location.hash);
}

const showTyped = delayed(60, () => {
  state.cut = null;
  setBytes(readField());
});

$('text').addEventListener('input', showTyped);
$('text').addEventListener('paste', paste);
$('notation').addEventListener('change', showTyped);
$('reading').addEventListener('change', () => {
  showReading();
  show();
});
$('press').addEventListener('keydown', press);
$('flush').addEventListener('click', () => flush(state.waits?.kind === 'Paste' ? 'paste' : 'flush', 'unflush'));
$('unflush').addEventListener('click', () => flush('more', 'flush'));
$('clear').addEventListener('click', () => {
  $('text').value = '';
  state.cut = null;
  setBytes(readField());
  $('text').focus();
});
for (const button of document.querySelectorAll('[data-try]')) {
  button.addEventListener('click', () => {
    choose('notation', 'auto');
    if (button.dataset.reading) choose('reading', button.dataset.reading);
    showReading();
    showExample(button.dataset.try);
  });
}
$('cut').addEventListener('input', () => {
  state.cut = Number($('cut').value);
  showCut(asking.signal).catch(failed);
  showLink();
});
$('copy').addEventListener('click', () => copy(link(), 'The link'));
$('copy-report').addEventListener('click', () => copy(report(), 'The report'));
for (const id of MODES) $(id).addEventListener('change', () => { if (state.sent) showSent(state.sent); });
$('key').addEventListener('input', delayed(300, nameKey));
$('keyboard').addEventListener('change', pickKey);
$('keyboard').addEventListener('keydown', goToRow);
$('find').addEventListener('input', delayed(40, showFound));
window.addEventListener('hashchange', () => {
  follow(location.hash);
  loadKey(location.hash);
});
document.addEventListener('click', (event) => {
  const clicked = event.target.closest('a[data-hex]');
  if (!clicked || event.ctrlKey || event.metaKey || event.shiftKey || event.altKey) return;
  event.preventDefault();
  follow(clicked.hash);
});

showReading();
if (!loadLink(location.hash)) showExample('\\e[1;5Aq\\e');
ask('table', {}).then(start).catch(failed);
