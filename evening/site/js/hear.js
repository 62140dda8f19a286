// Hearing the host: the arena, the own seat, the own game, the table around it. Answers can overtake each other; X-Arena-Seen
// is the journal's length and tells which of two is the newer.
import { ask } from './api.js';
import { GameLine } from './line.js';
import { other } from './rules.js';
import { result } from './words.js';
import { page, hall, clock, live, ourTurn, ended, forgetEvening } from './state.js';
import * as show from './show.js';

let tableHeard = -Infinity;

// One beat of the page; the wait in ms until the next one, or null where nobody sits here.
export async function beat(resend) {
  if (page.key === null) return null;
  const nearEnd = page.arena && !ended() && hall.now() + 1500 > page.arena.ends;
  if (performance.now() - page.arenaHeard > (page.me ? 20000 : 0) || nearEnd) await hearArena();
  if (live()) {
    if (page.sending && !page.sending.flying) await resend(page.sending);
    else takeGame(await ask('GET', 'game/' + page.game.id, page.key));
    if (!live()) return 0;
  } else {
    takeMe(await ask('GET', 'me', page.key));
    if (page.me.game !== null && performance.now() >= page.heldUntil) takeGame(await ask('GET', 'game/' + page.me.game, page.key));
    else if (page.me.game === null && page.me.rank !== null) await hearTable();
  }
  return wait();
}

function wait() {
  if (live()) return (ourTurn() ? 1500 : 600) * (document.hidden ? 2 : 1);
  return { idle: 1500, playing: 400, paused: 4000, absent: 4000, left: 15000 }[page.me.seat];
}

async function hearArena() {
  const a = await ask('GET', 'arena', page.key);
  page.arenaHeard = performance.now();
  if (page.arena && a.body.time + 5000 < hall.now()) forgetEvening(); // the host was started anew
  page.arena = a.body;
  hall.hear(a.body.time, a.got);
}

async function hearTable() {
  if (performance.now() - tableHeard < 6000) return;
  tableHeard = performance.now();
  const t = await ask('GET', 'standing/' + Math.floor(page.me.rank / 10)); // no key: nginx may answer for all who look
  if (t.seen < page.meSeen) tableHeard = -Infinity; // an answer that was kept from before
  if (page.arena) page.arena.entered = t.body.total;
  show.table(t.body.players);
  show.draw();
}

export function takeMe(a) {
  if (a.seen < page.meSeen) return;
  page.meSeen = a.seen;
  const id = a.body.game;
  if (id !== null && id !== page.noticed?.id && id !== page.game?.id) page.noticed = { id, at: page.heardAt };
  page.heardAt = a.got;
  page.me = a.body;
  if (page.me.seat !== 'playing') page.wish = { idle: 'in', paused: 'paused', left: 'left', absent: null }[page.me.seat];
  show.draw();
}

export function takeGame(a) {
  const g = a.body;
  const fresh = page.game === null || page.game.id !== g.id;
  if (!fresh && a.seen < page.gameSeen) return;
  const was = fresh ? null : page.game;
  if (fresh) begin(g);
  [page.game, page.gameSeen] = [g, a.seen];
  clock.hear(g, a.got);
  if (page.sending && g.ply > page.sending.ply) page.sending = null;
  if (fresh || g.ply !== was.ply) {
    page.turnSince = was ? page.heardAt : g.ply === 0 && page.noticed?.id === g.id ? page.noticed.at : null;
    page.line.follow(g);
    show.clearNotices(); // they were of another position
    show.tell(was, g);
  } else if (g.offer === other(page.side) && was.offer !== g.offer) show.say(`${g[g.offer]} offers a draw.`);
  page.line.fill(g, a.seen, page.key).then((found) => { if (found) show.draw(); }, () => {});
  page.heardAt = a.got;
  if (g.outcome !== null && was?.outcome == null) finish(g);
  show.draw();
}

function begin(g) {
  if (page.game?.outcome) page.lastGame = summary(page.game);
  page.side = g.white === page.me.name ? 'white' : 'black';
  page.before = page.me.points;
  page.line = new GameLine(g.id);
  page.sending = page.over = null;
  page.heldUntil = 0;
}

function summary(g) {
  const [head, how] = result(g.outcome, page.side);
  return `Last game: ${head.toLowerCase()} against ${g[other(page.side)]}. ${how}.`;
}

// A wave may start the next game at once: the result stays up to four seconds before it, and never long against the time that
// the first move has.
function finish(g) {
  page.sending = null;
  page.arenaHeard = tableHeard = -Infinity;
  page.heldUntil = performance.now() + Math.min(4000, (page.site.first ?? 12000) / 4);
  if (g.outcome.cause === 'noshow' && g.outcome.winner !== page.side) page.wish = 'paused';
  show.finished(g);
}
