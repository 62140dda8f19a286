// Showing what the player's page knows.
import { Board } from './board.js';
import { readFen, play, boardFen, other, inCheck } from './rules.js';
import { result, place, span, phase, spoken, startsIn } from './words.js';
import { page, hall, clock, live, ourTurn, ended } from './state.js';

export const $ = (id) => document.getElementById(id);
let board = null;

export function setUp(onMove) {
  board = new Board($('board'), onMove);
}

export function draw() {
  const { key, me, game } = page;
  Object.assign(document.body.dataset, {
    view: key === null ? 'signin' : game !== null ? 'game' : me !== null ? 'lobby' : 'wait',
    seat: me?.seat ?? '', live: live() ? 'yes' : 'no', game: game?.id ?? '',
  });
  if (me) drawMe();
  if (game) drawGame();
  drawHead();
  stayAwake();
}

// ---- the player

function drawMe() {
  const { me, arena } = page;
  $('name').textContent = me.name;
  $('rating').textContent = me.rating;
  $('fire').hidden = !me.fire;
  $('rank').textContent = me.rank === null ? '–' : place(me.rank) + (arena?.entered ? ` of ${Math.max(arena.entered, me.rank + 1)}` : '');
  $('points').textContent = me.points;
  $('performance').textContent = me.rank === null || me.performance === 0 ? '–' : me.performance;
  $('seat').textContent = seatWords();
  $('last').textContent = live() ? page.lastGame : '';
  drawSeatKeys();
}

function seatWords() {
  if (page.over || (ended() && !live())) return 'The arena is over. Thank you for playing.';
  return {
    absent: 'You are not in yet: enter to be paired.',
    idle: page.arena && hall.now() < page.arena.starts ? 'You are in, and the first games come when the arena starts.' : 'Waiting for your next opponent …',
    paused: 'You are paused and will not be paired.',
    left: 'You have left this arena.',
    playing: { paused: 'You will be paused after this game.', left: 'This is your last game, you have left.' }[page.wish] ?? 'You are playing.',
  }[page.me.seat];
}

function drawSeatKeys() {
  const { seat } = page.me, { wish } = page;
  const shown = (id, on) => { $(id).hidden = !on; $(id).disabled = page.busy; };
  const playing = seat === 'playing', open = !ended() && !page.over && wish !== 'left' && seat !== 'left';
  shown('enter', open && (seat === 'absent' || seat === 'paused' || (playing && wish === 'paused')));
  shown('pause', open && (seat === 'idle' || (playing && wish !== 'paused')));
  shown('leave', open && seat !== 'absent');
  $('enter').textContent = seat === 'absent' ? 'Enter the arena' : playing ? 'Keep playing' : 'Enter again';
  $('pause').textContent = playing ? 'Pause after this game' : 'Pause';
}

export function table(rows) {
  $('near').hidden = rows.length === 0 || live();
  $('near').querySelector('tbody').replaceChildren(...rows.map((r) => {
    const tr = document.createElement('tr');
    tr.className = r.name === page.me?.name ? 'own' : '';
    if (tr.className) tr.setAttribute('aria-current', 'true');
    for (const t of [r.rank + 1, r.name, r.points]) tr.append(Object.assign(document.createElement('td'), { textContent: t }));
    tr.children[1].classList.toggle('on-fire', r.fire);
    return tr;
  }));
}

// ---- the game

function drawGame() {
  const { game, side, sending } = page;
  const ahead = sending && play(readFen(game.fen), sending.m); // our move stands on the board before the host has it
  board.show({ fen: ahead ? boardFen(ahead) : game.fen, last: sending ? sending.word : game.last, below: side,
    mover: ourTurn() && !sending ? side : null });
  for (const [id, s] of [['them', other(side)], ['us', side]]) {
    const strip = $(id);
    strip.querySelector('.seat').className = 'seat ' + s;
    strip.querySelector('.name').textContent = game[s];
    strip.querySelector('.mark').textContent = game[s + 'Berserk'] ? 'berserk' : '';
    strip.classList.toggle('turn', !game.outcome && game.turn === s);
    strip.classList.toggle('won', game.outcome?.winner === s);
    strip.querySelector('.clock').setAttribute('aria-label', `Clock of ${game[s]}`);
  }
  drawMoves();
  drawGameKeys();
  drawResult();
  clocks();
}

function drawMoves() {
  const texts = page.line.texts(), list = $('moves');
  const of = page.line.id + ' ' + texts.join(' ');
  if (list.dataset.of === of) return;
  list.dataset.of = of;
  const rows = [];
  for (let i = 0; i < texts.length; i += 2) {
    const li = document.createElement('li');
    li.append(...[texts[i], texts[i + 1] ?? ''].map((t) => Object.assign(document.createElement('span'), { textContent: t })));
    rows.push(li);
  }
  list.replaceChildren(...rows);
  list.scrollTop = list.scrollHeight;
}

function drawGameKeys() {
  const { game, side, busy } = page, on = live();
  $('near').hidden ||= on;
  $('acts').hidden = !on && page.line.moves.length === 0;
  $('acts').classList.toggle('done', !on);
  $('draw').disabled = busy || !on || game.offer !== null;
  $('draw').textContent = on && game.offer === side ? 'Draw offered' : 'Offer draw';
  $('claim').disabled = busy || !ourTurn();
  $('claim').classList.toggle('hot', ourTurn() && page.line.claimable(game.fen));
  $('berserk').disabled = busy || !on || game[side + 'Berserk'] || game.ply > (side === 'white' ? 0 : 1);
  $('resign').disabled = busy || !on;
  $('typed').disabled = !on;
  $('offer').hidden = !on || game.offer !== other(side);
  $('offer-text').textContent = `${game[other(side)]} offers a draw.`;
  $('accept').disabled = $('decline').disabled = busy;
}

function drawResult() {
  const { me, game } = page;
  $('result').hidden = live();
  if (live()) return;
  const heard = me.game !== game.id; // the seat was asked for after the end, so its points count the game
  const gain = me.points - page.before;
  $('next').hidden = !heard || me.game === null;
  $('result').querySelector('.gain').textContent = heard && gain > 0
    ? `+${gain} point${gain === 1 ? '' : 's'}${gain > 3 ? ', with the streak' : ''}` : '';
}

export function finished(g) {
  const [head, how] = result(g.outcome, page.side), card = $('result');
  say(`${head}. ${how}.`);
  card.querySelector('h2').textContent = `${head} against ${g[other(page.side)]}`;
  card.querySelector('p').textContent = how + '.';
  card.dataset.won = g.outcome.winner === page.side ? 'yes' : g.outcome.winner === null ? 'draw' : 'no';
  setTimeout(() => card.scrollIntoView({ block: 'nearest', behavior: 'smooth' }), 300);
}

// ---- clocks; called ten times a second. A flag that falls here is asked for at once.

let flagAsked = -Infinity;
export function clocks(ask = () => {}) {
  const { game, side, sending } = page;
  if (!game) return;
  for (const s of [other(side), side]) {
    const strip = $(s === side ? 'us' : 'them');
    const runs = clock.runs === s && !(sending && s === side);
    const ms = clock.left(s), face = strip.querySelector('.clock');
    setText(face, span(ms, true));
    face.classList.toggle('runs', runs);
    face.classList.toggle('low', runs && ms < 20000);
    if (runs && ms === 0 && performance.now() - flagAsked > 400) {
      flagAsked = performance.now();
      ask();
    }
    setText(strip.querySelector('.note'), note(s));
  }
}

function note(s) {
  const { game, side, site, turnSince, sending } = page;
  if (!live() || game.turn !== s) return '';
  if (game.ply < 2) {
    const left = site.first === null || turnSince === null ? null : site.first - 300 - (performance.now() - turnSince);
    return (s === side ? 'make your first move' : 'first move to come') + (left === null ? '' : ` ${span(left)}`);
  }
  return s === side && !sending ? 'your move' : '';
}

export function drawHead() {
  setText($('phase'), page.over ? 'The arena is over' : phase(page.arena, hall.now()));
  const call = ourTurn() && !page.sending ? '● Your move – ' : live() ? 'Playing – ' : '';
  if (document.title !== call + page.site.title) document.title = call + page.site.title;
  const before = page.arena !== null && hall.now() < page.arena.starts;
  $('countdown').hidden = !before || live();
  if (before) setText($('countdown').querySelector('b'), startsIn(page.arena, hall.now()));
}

function setText(node, text) {
  if (node.textContent !== text) node.textContent = text;
}

// ---- words

export function tell(was, g) {
  const foe = g[other(page.side)];
  if (!was && g.ply < 2) say(`New game. You have the ${page.side} pieces against ${foe}.${g.turn === page.side ? ' Your move.' : ''}`);
  else if (g.last && g.turn === page.side && !g.outcome) {
    say(`${foe} plays ${spoken(page.line.texts().at(-1))}${inCheck(readFen(g.fen)) ? ', check' : ''}. Your move.`);
    if (document.hidden) navigator.vibrate?.(80);
  }
}

export function say(text) {
  $('say').textContent = text;
}

export function clearNotices() {
  $('notice').textContent = $('seat-notice').textContent = '';
}

export function banner(text) {
  $('link').hidden = text === '';
  $('link').textContent = text;
}

export async function confirmed(text, yes) {
  const dialog = $('ask');
  $('ask-text').textContent = text;
  $('ask-yes').textContent = yes;
  dialog.returnValue = 'no';
  dialog.showModal();
  await new Promise((done) => dialog.addEventListener('close', done, { once: true }));
  return dialog.returnValue === 'yes';
}

// A phone that sleeps loses on time. Only a page over https may keep it awake.
let awake = null;
async function stayAwake() {
  if (awake || document.hidden || !navigator.wakeLock || !['idle', 'playing'].includes(page.me?.seat)) return;
  awake = navigator.wakeLock.request('screen').catch(() => null);
  const lock = await awake;
  if (lock) lock.addEventListener('release', () => { awake = null; });
  else awake = null;
}
