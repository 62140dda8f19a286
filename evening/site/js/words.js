// What the host's words mean to a player.

const REFUSALS = {
  NoKey: 'This needs your key: please open your personal link again.',
  UnknownKey: 'The hall does not know this key: please check your link or ask the director.',
  Closed: 'The arena is over.',
  Left: 'You have left this arena for good and cannot come back.',
  AlreadyIn: 'You are in already.',
  AlreadyPaused: 'You are paused already.',
  NotEntered: 'You have not entered yet.',
  NoGame: 'There is no such game.',
  NotYours: 'This is not your game.',
  Over: 'The game is over.',
  NotYourTurn: 'It is not your turn.',
  Illegal: 'That move is not legal.',
  OfferStands: 'A draw offer stands, or you have offered at this move already.',
  NoOffer: 'There is no draw offer any more.',
  NoClaim: 'No draw can be claimed here: it takes the same position three times, or fifty moves each without a pawn move or capture.',
  BerserkLate: 'Berserk is possible only before your first move.',
  BerserkTwice: 'You have gone berserk already.',
  BerserkZero: 'There is no berserk with this time control.',
  Full: 'The host has no room for more entries: please tell the director.',
};
export const refusal = (code) => REFUSALS[code] ?? `The hall refused this (${code}): please tell the director.`;

const CAUSES = {
  mate: 'checkmate', stalemate: 'stalemate', resign: 'resignation', agreed: 'agreement',
  threefold: 'threefold repetition', fifty: 'the fifty-move rule', fivefold: 'fivefold repetition',
  seventyfive: 'the seventy-five-move rule', dead: 'a dead position', flag: 'time', noshow: 'no first move in time',
};
export const cause = (word) => CAUSES[word] ?? word;

// The result as a table shows it.
export const score = (outcome, dash = '–') => ({ white: `1${dash}0`, black: `0${dash}1` }[outcome.winner] ?? `½${dash}½`);

export const counted = (n, word) => `${n} ${word}${n === 1 ? '' : 's'}`;

// The result for the player of this side: a head and a reason.
export function result(outcome, side) {
  if (outcome.winner === null) {
    return ['Draw', outcome.cause === 'flag' ? 'Time is up, against a bare king' : 'By ' + cause(outcome.cause)];
  }
  const won = outcome.winner === side;
  const how = {
    resign: won ? 'Your opponent resigned' : 'You resigned',
    flag: won ? 'Your opponent’s time is up' : 'Your time is up',
    noshow: won ? 'Your opponent made no first move' : 'You made no first move in time and are paused',
  }[outcome.cause] ?? 'By ' + cause(outcome.cause);
  return [won ? 'You won' : 'You lost', how];
}

export const place = (rank) => {
  const n = rank + 1, t = n % 100;
  return n + (t > 10 && t < 14 ? 'th' : ['th', 'st', 'nd', 'rd'][n % 10] ?? 'th');
};

// A span of time: 1:02:03, 4:05, and with tenths where fine.
export function span(ms, fine = false) {
  const left = Math.max(0, ms);
  if (fine && left < 20000) {
    const t = Math.floor(left / 100);
    return `0:${String(Math.floor(t / 10)).padStart(2, '0')}.${t % 10}`;
  }
  const s = fine ? Math.floor(left / 1000) : Math.ceil(left / 1000);
  const two = (n) => String(n).padStart(2, '0');
  const h = Math.floor(s / 3600), m = Math.floor(s / 60) % 60;
  return h > 0 ? `${h}:${two(m)}:${two(s % 60)}` : `${m}:${two(s % 60)}`;
}

export const startsIn = (arena, now) => span(arena.starts - now);

// What the arena's state means in the head of a page.
export function phase(arena, now) {
  if (!arena || now === null) return '';
  if (now < arena.starts) return `Starts in ${startsIn(arena, now)}`;
  if (now < arena.ends) return `${span(arena.ends - now)} to go`;
  return arena.running > 0 ? 'Time is up, last games' : 'The arena is over';
}

// A move as it is read aloud: knight takes f3, castles long.
export function spoken(text) {
  const names = { K: 'king ', Q: 'queen ', R: 'rook ', B: 'bishop ', N: 'knight ' };
  if (text.startsWith('O-O-O')) return 'castles long';
  if (text.startsWith('O-O')) return 'castles';
  return text.replace(/[+#]$/, '').replace('=', ', becomes a ').replace(/[KQRBN]/g, (c) => names[c]).replace('x', ' takes ')
    .replace(/\s+/g, ' ').trim();
}
