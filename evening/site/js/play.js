// The player's page: one key, one seat, one game at a time. This file does what the player asks for.
import { ask, evening, finalTable, Away, Refused, Poller } from './api.js';
import { readFen, uci, typedMove } from './rules.js';
import { loadPieces } from './pieces.js';
import { refusal } from './words.js';
import { page, store, live, ourTurn, ended, forgetEvening } from './state.js';
import { beat, takeMe, takeGame } from './hear.js';
import * as show from './show.js';

const { $ } = show;
let answered = performance.now(); // when any beat last went well

// ---- acts

async function act(path, where, then) {
  if (page.busy) return;
  page.busy = true;
  show.clearNotices();
  show.draw();
  try {
    then(await ask('POST', path, page.key));
  } catch (e) {
    where.textContent = e instanceof Refused ? refusal(e.code) : 'The hall did not answer: please try again.';
    if (!(e instanceof Refused) && !(e instanceof Away)) console.error(e);
  }
  page.busy = false;
  show.draw();
  poller.kick();
}

const inGame = (word) => act(`game/${page.game.id}/${word}`, $('notice'), takeGame);
const seat = (word) => act(word, $('seat-notice'), (a) => {
  page.wish = { enter: 'in', pause: 'paused', leave: 'left' }[word];
  takeMe(a);
});

function moveBy(m) {
  if (!ourTurn() || page.sending) return;
  page.sending = { word: uci(m), ply: page.game.ply, m, flying: false };
  show.clearNotices();
  show.draw();
  sendMove(page.sending).catch((e) => {
    if (!(e instanceof Away)) console.error(e);
    poller.kick();
  });
}

// A move is sent until it is heard to stand. That does no harm: once it stands its piece has left the square, and the same
// word is refused. No other act is repeated by the page: an offer that comes late could meet another position.
async function sendMove(s) {
  s.flying = true;
  try {
    takeGame(await ask('POST', `game/${page.game.id}/move/${s.word}`, page.key));
    if (live()) poller.kick();
  } catch (e) {
    s.flying = false;
    if (!(e instanceof Refused)) throw e;
    if (page.sending !== s) return;
    page.sending = null;
    takeGame(await ask('GET', 'game/' + page.game.id, page.key));
    if (live() && page.game.ply === s.ply) $('notice').textContent = refusal(e.code);
    show.draw();
  }
}

function playTyped() {
  if (!ourTurn() || page.sending) {
    $('notice').textContent = refusal('NotYourTurn');
    return;
  }
  const m = typedMove(readFen(page.game.fen), $('typed').value);
  if (m) {
    $('typed').value = '';
    moveBy(m);
  } else $('notice').textContent = `“${$('typed').value}” is no legal move here, or more than one.`;
}

// ---- losing and finding the host

async function onLink(misses) {
  page.arenaHeard = -Infinity;
  if (misses === 0) {
    page.over = null;
    show.banner('');
    return;
  }
  if (page.key !== null && await hostHasClosed()) return;
  if (performance.now() - answered > 3500) {
    show.banner(ended() ? 'The arena is over and the host has closed.'
      : page.sending ? 'No answer from the hall: your move is sent again until it gets through.' : 'No answer from the hall: trying again …');
  }
}

// Where the host has closed its table stands beside the pages. True where it does.
async function hostHasClosed() {
  page.over ??= await finalTable();
  if (!page.over) return false;
  if (page.me === null) {
    show.banner('The arena is over and the host has closed; the final table is on the hall screen.');
    return true;
  }
  const own = page.over.rows.find((r) => r.name === page.me.name);
  if (own) page.me = { ...page.me, ...own };
  if (live()) page.game = null; // its end was not heard; it does not count unless it came in time
  show.table(page.over.rows.slice(own ? own.rank - own.rank % 10 : 0).slice(0, 10));
  show.banner(ended() ? 'The arena is over and the host has closed; this is the final table.' : 'The host has closed before the time; this is its table.');
  show.draw();
  return true;
}

const poller = new Poller(async () => {
  try {
    const rest = await beat(sendMove);
    answered = performance.now();
    return rest;
  } catch (e) {
    if (!(e instanceof Refused)) throw e;
    if (e.code === 'UnknownKey' || e.code === 'NoKey') {
      standUp(refusal('UnknownKey'));
      return null;
    }
    forgetEvening(); // NoGame: the host was started anew
    return 1000;
  }
}, onLink);

// ---- keys

function sitDown(key) {
  forgetEvening();
  page.key = key;
  store.setItem('key', key);
  $('near').hidden = true;
  $('key-error').textContent = '';
  show.draw();
  poller.kick();
}

function standUp(why) {
  forgetEvening();
  page.key = null;
  store.clear();
  show.banner('');
  $('key-error').textContent = why;
  show.draw();
  $('key').focus();
}

// The key stands behind the # of a link: no server sees it. It is taken out of the address at once.
function keyFromLink() {
  const found = /^#(?:key=)?([A-Za-z0-9_]{16,64})$/.exec(location.hash);
  if (location.hash) history.replaceState(null, '', location.pathname + location.search);
  return found?.[1] ?? null;
}

// ---- wiring

const onClick = (id, what) => $(id).addEventListener('click', what);
const onSubmit = (id, what) => $(id).addEventListener('submit', (e) => { e.preventDefault(); what(); });

onSubmit('key-form', () => {
  sitDown($('key').value.trim());
  $('key').value = '';
});
onSubmit('type-form', playTyped);
onClick('enter', () => seat('enter'));
onClick('pause', () => seat('pause'));
onClick('leave', async () => {
  if (await show.confirmed('Leave this arena for good, with the points that you have?', 'Leave')) seat('leave');
});
onClick('draw', () => inGame('draw/offer'));
onClick('accept', () => inGame('draw/accept'));
onClick('decline', () => inGame('draw/decline'));
onClick('claim', () => inGame('claim'));
onClick('berserk', () => inGame('berserk'));
onClick('resign', async () => {
  const { id } = page.game;
  if (await show.confirmed('Resign this game?', 'Resign') && live() && page.game.id === id) inGame('resign');
});
onClick('next', () => {
  page.heldUntil = 0;
  poller.kick();
});
onClick('forget', async () => {
  if (!live() || await show.confirmed('Forget your key in this tab, in the middle of a game?', 'Forget')) standUp('');
});
addEventListener('hashchange', () => {
  const key = keyFromLink();
  if (key) sitDown(key);
});

loadPieces();
show.setUp(moveBy);
setInterval(() => {
  show.clocks(() => poller.kick());
  show.drawHead();
}, 100);
evening().then((e) => {
  page.site = e;
  $('title').textContent = e.title;
  $('control').textContent = e.control;
  $('control').hidden = !e.control;
  show.drawHead();
});
const first = keyFromLink() ?? store.getItem('key');
if (first) sitDown(first);
else show.draw();
