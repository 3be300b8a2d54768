// The program `words` over the definitions, as translate.py writes them.
const toList = items => items.reduceRight((tail, head) => ({ head, tail }), null);

function toArray(list) {
  const items = [];
  for (; list !== null; list = list.tail) items.push(list.head);
  return items;
}

// What the definitions use of the library.
const library = {
  not: a => !a,
  suc: n => n + 1,
  nat_eq: (a, b) => a === b,
  nat_lt: (a, b) => a < b,
  nat_le: (a, b) => a <= b,
  cond: (t, a, b) => (t ? a : b),
  append: (a, b) => toArray(a).reduceRight((tail, head) => ({ head, tail }), b),
  length: list => toArray(list).length,
  map: (f, list) => toList(toArray(list).map(x => f(x))),
  take: (n, list) => toList(toArray(list).slice(0, n)),
  drop(n, list) {
    for (; n > 0 && list !== null; n--) list = list.tail;
    return list;
  },
  slice_index_or(list, n, other) {
    list = library.drop(n, list);
    return list === null ? other : list.head;
  },
  get_or: (list, n, other) => library.slice_index_or(list, n, other),
  slice_index: (list, n) => library.slice_index_or(list, n, 0),
};

const PHASES = ["SpringMoves", "SpringRetreats", "AutumnMoves", "AutumnRetreats", "Winter"];
const KINDS = { Hold: () => [0, 0, 0], Move: (to, convoyed) => [convoyed ? 2 : 1, to, 0], SupportHold: at => [3, at, 0], SupportMove: (f, t) => [4, f, t], Convoy: (f, t) => [5, f, t] };
const optional = o => (o.variant === "None" ? 0 : o.parts[0] + 1);
const flag = b => (b ? 1 : 0);
const byRegion = (list, region) => toArray(list).sort((x, y) => region(x) - region(y));

function showGame(game) {
  const units = byRegion(game.units, u => u.region);
  const dislodged = byRegion(game.dislodged, d => d.unit.region);
  const barred = toArray(game.barred);
  return ["game", units.length]
    .concat(units.flatMap(u => [u.power, u.region, flag(u.fleet)]))
    .concat(toArray(game.owners).map(optional))
    .concat([PHASES.indexOf(game.phase.variant), dislodged.length])
    .concat(dislodged.flatMap(d => [d.unit.power, d.unit.region, flag(d.unit.fleet), optional(d.from)]))
    .concat([barred.length], barred)
    .join(" ");
}

function showLast(reports) {
  const tell = r => [r.unit.region, ...KINDS[r.order.variant](...r.order.parts), flag(r.success), flag(r.dislodged), flag(r.ring), flag(r.stranded)];
  return ["last"].concat(byRegion(reports, r => r.unit.region).flatMap(tell)).join(" ");
}

let board = { regions: null, march: null, sail: null };
let game = { phase: { variant: "SpringMoves", parts: [] }, units: null, dislodged: null, barred: null, owners: null };
let last = null;

function begin(words) {
  const verdict = calls_Begin_begin_verdict(words);
  [board, game] = [calls_Begin_begin_board(board, words), calls_Begin_begin_game(game, words)];
  console.log("begin " + calls_Verdict_number(verdict));
  if (calls_Verdict_is_accepted(verdict)) console.log(showGame(game));
}

function turn(words) {
  const verdict = calls_Turn_turn_verdict(board, words);
  const moves = game_Game_is_moves(game.phase);
  [game, last] = [calls_Turn_turn_game(board, game, words), calls_Turn_turn_last(board, game, words, last)];
  console.log("turn " + calls_Verdict_number(verdict));
  if (!calls_Verdict_is_accepted(verdict)) return;
  if (moves) console.log(showLast(last));
  console.log(showGame(game));
}

const lines = require("fs").readFileSync(0, "latin1").split("\n");
if (lines[lines.length - 1] === "") lines.pop();
for (const line of lines) {
  const call = /^(begin|turn)((?: \d+)*)$/.exec(line);
  if (call === null) {
    console.log("?");
    continue;
  }
  const words = toList(call[2] === "" ? [] : call[2].slice(1).split(" ").map(Number));
  (call[1] === "begin" ? begin : turn)(words);
}
