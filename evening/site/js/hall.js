// The hall's screen. It reads the journal's tail for what is new, and asks for whole games and table pages by need. No key.
import { ask, evening, finalTable, Away, Poller } from './api.js';
import { HallClock, GameClock } from './clocks.js';
import { loadPieces } from './pieces.js';
import { Boards } from './boards.js';
import { Tables } from './tables.js';
import { cause, span, phase, place, score, counted } from './words.js';

const $ = (id) => document.getElementById(id);
const ARENA_MS = 5000, LATEST = 6, AT_ONCE = 24, TOGETHER = 4;
const hall = new HallClock();

let arena = null, arenaHeard = -Infinity;
let seen = null; // entries of the journal that we know of
// id -> { g, clock, need, asked, shown, calm, fresh }; need: the journal length that an answer must have; asked: the one it
// had; shown: when last on a board; calm: its last act was no ending one; fresh: it began under our eyes
let games = new Map();
let upTo = 0, downTo = 0; // ids in [downTo, upTo) are looked at
let latest = [];
let over = null;

const tables = new Tables(ask);
const boards = new Boards($('boards'), tables.ranks);

// ---- hearing the host

async function beat() {
  if (seen === null || performance.now() - arenaHeard > ARENA_MS || nearEdge()) await hearArena();
  if (await hearJournal()) return 0;
  await hearGames();
  await tables.hear();
  show();
  return document.hidden ? 5000 : 1000;
}

const nearEdge = () => [arena.starts, arena.ends].some((t) => Math.abs(t - hall.now()) < 2500);

async function hearArena() {
  const a = await ask('GET', 'arena');
  if (arena && a.body.time + 5000 < hall.now()) forget();
  arenaHeard = a.seen < seen ? -Infinity : performance.now(); // an answer kept by the proxy may be older than the journal
  arena = a.body;
  hall.hear(arena.time, a.got);
  if (seen === null) {
    seen = a.seen;
    upTo = downTo = arena.begun;
  }
}

// The host was started anew.
function forget() {
  arena = seen = over = null;
  games = new Map();
  upTo = downTo = 0;
  latest = [];
  boards.clear();
  tables.clear();
}

// True where more entries wait. An entry `act P G …` says that game G is to be asked for again.
async function hearJournal() {
  const j = (await ask('GET', 'journal/' + seen)).body;
  if (j.total < seen) {
    forget();
    return true;
  }
  j.entries.forEach((text, i) => {
    const [, , what, , g] = text.split(' ');
    if (what === 'act') {
      const x = games.get(Number(g));
      if (x) [x.need, x.calm] = [j.from + i + 1, !/ (resign|accept|claim)$/.test(text)];
    } else if (what === 'wave' || what === 'tick') arenaHeard = -Infinity;
  });
  seen = j.from + j.entries.length;
  return j.entries.length === 1000;
}

async function hearGames() {
  if (arenaHeard === -Infinity) await hearArena();
  for (; upTo < arena.begun; upTo++) games.set(upTo, unheard(true));
  const queue = wanted();
  await Promise.all(Array.from({ length: TOGETHER }, async () => {
    while (queue.length > 0) await hearGame(queue.shift());
  }));
  for (const [id, x] of games) if (x.g?.outcome && !boards.has(id)) games.delete(id);
}

const unheard = (fresh) => ({ g: null, clock: new GameClock(), need: 0, asked: -1, shown: 0, calm: true, fresh });

// The games to ask for now: those on a board that changed, those never heard, and, where more are open than run, those that
// may have ended. Where fewer are open the screen came late, and looks down from the newest for those that run.
function wanted() {
  const ids = new Set();
  const want = (id) => { if (ids.size < AT_ONCE) ids.add(id); };
  for (const id of boards.ids()) if (games.get(id)?.need > games.get(id)?.asked) want(id);
  for (const [id, x] of games) if (!x.g) want(id);
  const open = [...games.values()].filter((x) => !x.g?.outcome).length;
  if (open > arena.running) {
    [...games].filter(([, x]) => x.g && !x.g.outcome && x.asked < seen)
      .sort(([, a], [, b]) => a.calm - b.calm || a.asked - b.asked).forEach(([id]) => want(id));
  }
  for (let k = arena.running - open; k > 0 && downTo > 0 && ids.size < AT_ONCE; k--) {
    downTo -= 1;
    games.set(downTo, unheard(false));
    want(downTo);
  }
  return [...ids];
}

async function hearGame(id) {
  const a = await ask('GET', 'game/' + id);
  const x = games.get(id);
  if (!x || a.seen < x.asked) return;
  const was = x.g;
  [x.g, x.asked] = [a.body, a.seen];
  x.clock.hear(x.g, a.got);
  if (x.g.outcome && !was?.outcome && (was || x.fresh)) {
    latest = [x.g, ...latest].slice(0, LATEST);
    boards.ended(id);
  }
}

// ---- showing

function show() {
  const before = hall.now() < arena.starts;
  const done = over !== null || (hall.now() >= arena.ends && arena.running === 0);
  document.body.dataset.state = done ? 'over' : before ? 'before' : 'running';
  $('counts').textContent = done ? '' : `${counted(arena.entered, 'player')} · ${counted(arena.running, 'game')} running · ${arena.begun - arena.running} played`;
  tables.drawTeams($('teams-line'), done);
  boards.seat(games, seen);
  boards.draw(games);
  const poster = done || before || (boards.empty && arena.running === 0);
  $('poster').hidden = !poster;
  $('boards').hidden = poster;
  if (poster) drawPoster(before, done);
  drawLatest();
}

function drawLatest() {
  document.querySelector('footer').hidden = latest.length === 0;
  $('latest').replaceChildren(...latest.map((g) => {
    const li = document.createElement('li');
    li.innerHTML = '<b></b> <span class="score"></span> <b></b> <span class="dim"></span>';
    [g.white, score(g.outcome), g.black, cause(g.outcome.cause)].forEach((t, i) => { li.children[i].textContent = t; });
    return li;
  }));
}

function drawPoster(before, done) {
  const [h, p, list] = $('poster').children;
  list.replaceChildren();
  if (!done) {
    h.textContent = before ? span(arena.starts - hall.now()) : 'No games yet';
    p.textContent = (before ? 'to the first games. ' : '') + 'Open the link on your slip and press Enter.';
    return;
  }
  h.textContent = over && hall.now() < arena.ends ? 'The host has closed' : 'The arena is over';
  p.textContent = tables.winners();
  list.replaceChildren(...tables.first(3).map((r, i) => {
    const li = document.createElement('li');
    li.innerHTML = '<span class="step"></span><b></b><span class="dim"></span>';
    [place(i), r.name, `${counted(r.points, 'point')} in ${counted(r.games, 'game')}`].forEach((t, k) => { li.children[k].textContent = t; });
    return li;
  }));
}

function ticking() {
  boards.tick(games, seen);
  const text = over ? 'Final table' : phase(arena, hall.now());
  if ($('phase').textContent !== text) $('phase').textContent = text;
  if (arena && hall.now() < arena.starts) $('poster').querySelector('h2').textContent = span(arena.starts - hall.now());
}

// ---- losing and finding the host

async function onLink(misses) {
  arenaHeard = -Infinity;
  $('link').hidden = misses < 2;
  $('link').textContent = 'No answer from the host: trying again …';
  if (misses === 0) {
    over = null;
    tables.final = null;
    return;
  }
  over ??= await finalTable();
  if (!over) return;
  $('link').hidden = true;
  arena ??= { starts: 0, ends: 0, entered: over.rows.length, running: 0, begun: 0 };
  arena.running = 0;
  tables.setFinal(over);
  show();
}

// ---- wiring

const poller = new Poller(beat, onLink);

function turnBy(by) {
  if (tables.turn(by)) poller.kick();
}
$('back').addEventListener('click', () => turnBy(-1));
$('next').addEventListener('click', () => turnBy(1));
$('hold').addEventListener('click', () => tables.hold());
addEventListener('keydown', (e) => {
  if (e.key === 'ArrowRight') turnBy(1);
  if (e.key === 'ArrowLeft') turnBy(-1);
});

const theme = new URLSearchParams(location.search).get('theme');
if (theme) document.documentElement.dataset.theme = theme;
loadPieces();
setInterval(ticking, 100);
setInterval(() => tables.turn(0), 1000);
evening().then((e) => {
  $('title').textContent = e.title;
  $('control').textContent = e.control;
  $('control').hidden = !e.control;
  document.title = e.title + ' – hall screen';
});
poller.kick();
