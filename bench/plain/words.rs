// The rules once more, in plain Rust: written from docs/RULES.md and docs/FORMATS.md, and from nothing else here.
// It answers the calls of the program `words`, for comparing answers and times. Nothing of it is proved.
//
//     rustc --edition 2024 -O bench/plain/words.rs -o target/bench/plain-words
//     target/bench/plain-words < crates/words/stdin | cmp - crates/words/stdout
use std::io::{self, BufRead, BufWriter, Write};

const POWERS: u32 = 7;
const REGIONS: usize = 128;

// ---- the board and the game

#[derive(Clone, Copy, PartialEq)]
enum Kind {
    Land,
    Coast,
    Sea,
}

// A set of regions, one bit each.
type Regions = u128;

fn has(set: Regions, r: usize) -> bool {
    r < REGIONS && set >> r & 1 == 1
}

#[derive(Default)]
struct Board {
    kind: Vec<Kind>,
    centre: Vec<bool>,
    // 0 for nobody, else power plus 1.
    home: Vec<u32>,
    // For each region those joined to it.
    march: Vec<Regions>,
    sail: Vec<Regions>,
}

impl Board {
    fn count(&self) -> usize {
        self.kind.len()
    }

    fn can_be(&self, fleet: bool, r: usize) -> bool {
        r < self.count() && self.kind[r] != if fleet { Kind::Land } else { Kind::Sea }
    }

    fn joined(&self, fleet: bool, r: usize, t: usize) -> bool {
        has(if fleet { self.sail[r] } else { self.march[r] }, t)
    }

    fn is(&self, r: usize, kind: Kind) -> bool {
        r < self.count() && self.kind[r] == kind
    }

    fn legal(&self, u: &Unit, order: Order) -> bool {
        let pair = |f: usize, t: usize| f != t && f < self.count() && t < self.count();
        match order {
            Order::Hold => true,
            Order::Move { to, water: false } => self.joined(u.fleet, u.at, to),
            Order::Move { to, water: true } => !u.fleet && self.is(u.at, Kind::Coast) && self.is(to, Kind::Coast) && to != u.at,
            Order::SupportHold(r) => self.joined(u.fleet, u.at, r),
            Order::SupportMove(f, t) => pair(f, t) && f != u.at && self.joined(u.fleet, u.at, t),
            Order::Convoy(f, t) => pair(f, t) && u.fleet && self.is(u.at, Kind::Sea),
        }
    }
}

#[derive(Clone, Copy)]
struct Unit {
    power: u32,
    at: usize,
    fleet: bool,
}

#[derive(Clone, Copy)]
struct Out {
    unit: Unit,
    // 0 for an attack over water, else region plus 1.
    from: usize,
}

#[derive(Default)]
struct Game {
    phase: u32,
    units: Vec<Unit>,
    out: Vec<Out>,
    barred: Regions,
    // 0 for nobody, else power plus 1.
    owner: Vec<u32>,
}

// ---- texts

#[derive(Clone, Copy, PartialEq)]
enum Order {
    Hold,
    Move { to: usize, water: bool },
    SupportHold(usize),
    SupportMove(usize, usize),
    Convoy(usize, usize),
}

#[derive(Clone, Copy)]
enum Text {
    Order(Order),
    Build { fleet: bool },
    Disband,
}

// For each power and region its one text; none where there are two.
struct Texts(Vec<Written>);

#[derive(Clone, Copy)]
enum Written {
    Nothing,
    One(Text),
    More,
}

impl Texts {
    fn read(words: &[u32]) -> Texts {
        let mut table = vec![Written::Nothing; POWERS as usize * REGIONS];
        for w in words.chunks(5) {
            let (a, b) = (w[3] as usize, w[4] as usize);
            let text = match w[2] {
                0 => Text::Order(Order::Hold),
                1 => Text::Order(Order::Move { to: a, water: false }),
                2 => Text::Order(Order::Move { to: a, water: true }),
                3 => Text::Order(Order::SupportHold(a)),
                4 => Text::Order(Order::SupportMove(a, b)),
                5 => Text::Order(Order::Convoy(a, b)),
                6 => Text::Build { fleet: false },
                7 => Text::Build { fleet: true },
                _ => Text::Disband,
            };
            let place = &mut table[w[0] as usize * REGIONS + w[1] as usize];
            *place = match place {
                Written::Nothing => Written::One(text),
                _ => Written::More,
            };
        }
        Texts(table)
    }

    fn of(&self, power: u32, region: usize) -> Option<Text> {
        match self.0[power as usize * REGIONS + region] {
            Written::One(text) => Some(text),
            _ => None,
        }
    }
}

// ---- yes, no and open; strengths within bounds

#[derive(Clone, Copy, PartialEq)]
enum Tri {
    No,
    Open,
    Yes,
}
use Tri::{No, Open, Yes};

fn not(a: Tri) -> Tri {
    match a {
        No => Yes,
        Open => Open,
        Yes => No,
    }
}

fn and(a: Tri, b: Tri) -> Tri {
    if a == No || b == No {
        No
    } else if a == Open || b == Open {
        Open
    } else {
        Yes
    }
}

fn or(a: Tri, b: Tri) -> Tri {
    not(and(not(a), not(b)))
}

#[derive(Clone, Copy)]
struct Strength {
    least: u32,
    most: u32,
}

const NONE: Strength = Strength { least: 0, most: 0 };
const ONE: Strength = Strength { least: 1, most: 1 };

impl Strength {
    fn plus(self, t: Tri) -> Strength {
        Strength { least: self.least + (t == Yes) as u32, most: self.most + (t != No) as u32 }
    }

    fn above(self, other: Strength) -> Tri {
        if self.least > other.most {
            Yes
        } else if self.most <= other.least {
            No
        } else {
            Open
        }
    }
}

fn either(t: Tri, a: Strength, b: Strength) -> Strength {
    match t {
        Yes => a,
        No => b,
        Open => Strength { least: a.least.min(b.least), most: a.most.max(b.most) },
    }
}

// ---- deciding

struct Table<'a> {
    board: &'a Board,
    units: &'a [Unit],
    orders: Vec<Order>,
    // Who was in each region; which moves go there; which supports are for a hold there.
    there: Vec<Option<usize>>,
    moves_to: Vec<Vec<usize>>,
    hold_supports: Vec<Vec<usize>>,
    // For each unit the supports of its move, and the fleets that convoy it.
    supports: Vec<Vec<usize>>,
    carriers: Vec<Vec<usize>>,
    stranded: Vec<bool>,
}

struct Told {
    order: Order,
    success: bool,
    dislodged: bool,
    ring: bool,
    stranded: bool,
    has_path: bool,
}

impl<'a> Table<'a> {
    fn new(board: &'a Board, units: &'a [Unit], orders: Vec<Order>) -> Table<'a> {
        let mut t = Table {
            board,
            units,
            there: vec![None; board.count()],
            moves_to: vec![Vec::new(); board.count()],
            hold_supports: vec![Vec::new(); board.count()],
            supports: vec![Vec::new(); units.len()],
            carriers: vec![Vec::new(); units.len()],
            stranded: vec![false; units.len()],
            orders,
        };
        for (i, u) in units.iter().enumerate() {
            t.there[u.at] = Some(i);
        }
        for i in 0..units.len() {
            match t.orders[i] {
                Order::Hold => {}
                Order::Move { to, .. } => t.moves_to[to].push(i),
                Order::SupportHold(r) => t.hold_supports[r].push(i),
                Order::SupportMove(f, to) => {
                    if let Some(x) = t.there[f] {
                        if t.ends(x) == Some(to) {
                            t.supports[x].push(i);
                        }
                    }
                }
                Order::Convoy(f, to) => {
                    if let Some(x) = t.there[f] {
                        if t.orders[x] == (Order::Move { to, water: true }) {
                            t.carriers[x].push(i);
                        }
                    }
                }
            }
        }
        t
    }

    fn ends(&self, x: usize) -> Option<usize> {
        match self.orders[x] {
            Order::Move { to, .. } => Some(to),
            _ => None,
        }
    }

    fn over_water(&self, x: usize) -> bool {
        matches!(self.orders[x], Order::Move { water: true, .. })
    }

    fn head_to_head(&self, x: usize, y: usize) -> bool {
        self.ends(x) == Some(self.units[y].at) && self.ends(y) == Some(self.units[x].at) && !self.over_water(x) && !self.over_water(y)
    }

    fn dislodged(&self, x: usize, values: &[Tri]) -> Tri {
        let entered = self.moves_to[self.units[x].at].iter().fold(No, |t, &y| or(t, values[y]));
        if self.ends(x).is_some() { and(not(values[x]), entered) } else { entered }
    }

    // A chain of those carriers of x for which `counts` holds.
    fn chain(&self, x: usize, to: usize, counts: impl Fn(usize) -> bool) -> bool {
        let beside = |i: usize| self.board.sail[self.units[i].at];
        let fleets: Vec<usize> = self.carriers[x].iter().copied().filter(|&i| counts(i)).collect();
        let mut reached = vec![false; fleets.len()];
        let mut front: Vec<usize> = Vec::new();
        for k in 0..fleets.len() {
            if has(beside(fleets[k]), self.units[x].at) {
                reached[k] = true;
                front.push(k);
            }
        }
        while let Some(k) = front.pop() {
            if has(beside(fleets[k]), to) {
                return true;
            }
            for j in 0..fleets.len() {
                if !reached[j] && has(beside(fleets[k]), self.units[fleets[j]].at) {
                    reached[j] = true;
                    front.push(j);
                }
            }
        }
        false
    }

    fn path(&self, x: usize, values: &[Tri]) -> Tri {
        let Order::Move { to, water } = self.orders[x] else { return No };
        if !water {
            Yes
        } else if self.stranded[x] {
            No
        } else if self.chain(x, to, |i| self.dislodged(i, values) == No) {
            Yes
        } else if self.chain(x, to, |i| self.dislodged(i, values) != Yes) {
            Open
        } else {
            No
        }
    }

    // 1 and the support of x's move, from powers other than `but`.
    fn supported(&self, x: usize, but: Option<u32>, values: &[Tri]) -> Strength {
        self.supports[x].iter().filter(|&&s| Some(self.units[s].power) != but).fold(ONE, |n, &s| n.plus(values[s]))
    }

    fn attack(&self, x: usize, to: usize, path: Tri, values: &[Tri]) -> Strength {
        let free = self.supported(x, None, values);
        let there = match self.there[to] {
            None => free,
            Some(y) => {
                let power = self.units[y].power;
                let against = if power == self.units[x].power { NONE } else { self.supported(x, Some(power), values) };
                let leaves = if self.ends(y).is_some() && !self.head_to_head(x, y) { values[y] } else { No };
                either(leaves, free, against)
            }
        };
        either(path, there, NONE)
    }

    fn prevent(&self, x: usize, to: usize, path: Tri, values: &[Tri]) -> Strength {
        let full = self.supported(x, None, values);
        let there = match self.there[to] {
            Some(y) if self.head_to_head(x, y) => either(values[y], NONE, full),
            _ => full,
        };
        either(path, there, NONE)
    }

    fn to_beat(&self, x: usize, to: usize, values: &[Tri]) -> Strength {
        match self.there[to] {
            None => NONE,
            Some(y) if self.head_to_head(x, y) => self.supported(y, None, values),
            Some(y) if self.ends(y).is_some() => either(values[y], NONE, ONE),
            Some(_) => self.hold_supports[to].iter().fold(ONE, |n, &s| n.plus(values[s])),
        }
    }

    fn decide(&self, x: usize, paths: &[Tri], values: &[Tri]) -> Tri {
        let u = &self.units[x];
        let aim = match self.orders[x] {
            Order::Hold | Order::Convoy(..) => return No,
            Order::Move { to, .. } => {
                let attack = self.attack(x, to, paths[x], values);
                let mut wins = attack.above(self.to_beat(x, to, values));
                for &y in &self.moves_to[to] {
                    if y != x {
                        wins = and(wins, attack.above(self.prevent(y, to, paths[y], values)));
                    }
                }
                return wins;
            }
            Order::SupportHold(r) => r,
            Order::SupportMove(_, t) => t,
        };
        let mut lost = self.dislodged(x, values);
        for &y in &self.moves_to[u.at] {
            if self.units[y].power != u.power && self.units[y].at != aim {
                lost = or(lost, self.attack(y, u.at, paths[y], values).above(NONE));
            }
        }
        not(lost)
    }

    // As many rounds as units and one more, or until nothing changes.
    fn rounds(&self) -> (Vec<Tri>, Vec<Tri>) {
        let n = self.units.len();
        let mut values = vec![Open; n];
        let paths = |values: &[Tri]| (0..n).map(|x| self.path(x, values)).collect::<Vec<Tri>>();
        for _ in 0..=n {
            let now = paths(&values);
            let next: Vec<Tri> = (0..n).map(|x| self.decide(x, &now, &values)).collect();
            if next == values {
                break;
            }
            values = next;
        }
        let now = paths(&values);
        (values, now)
    }

    fn all(mut self) -> Vec<Told> {
        let (mut values, mut paths) = self.rounds();
        let n = self.units.len();
        let supports = |x: usize| matches!(self.orders[x], Order::SupportHold(_) | Order::SupportMove(..));
        if (0..n).any(|x| paths[x] == Open || supports(x) && values[x] == Open) {
            for x in 0..n {
                self.stranded[x] = paths[x] == Open;
            }
            (values, paths) = self.rounds();
        }
        let ring: Vec<bool> = (0..n).map(|x| self.ends(x).is_some() && values[x] == Open).collect();
        for x in 0..n {
            if ring[x] {
                values[x] = Yes;
            }
        }
        for x in 0..n {
            paths[x] = self.path(x, &values);
        }
        (0..n)
            .map(|x| Told {
                order: self.orders[x],
                success: values[x] == Yes,
                dislodged: self.dislodged(x, &values) == Yes,
                ring: ring[x],
                stranded: self.stranded[x],
                has_path: paths[x] == Yes,
            })
            .collect()
    }
}

// ---- the phases

impl Game {
    fn standing(&self) -> Regions {
        self.units.iter().fold(0, |s, u| s | 1 << u.at)
    }

    fn moves(&mut self, board: &Board, texts: &Texts) -> Vec<Told> {
        self.units.sort_by_key(|u| u.at);
        let orders = self
            .units
            .iter()
            .map(|u| match texts.of(u.power, u.at) {
                Some(Text::Order(o)) if board.legal(u, o) => o,
                _ => Order::Hold,
            })
            .collect();
        let told = Table::new(board, &self.units, orders).all();
        let mut units = Vec::new();
        let mut from = vec![0; board.count()];
        for (u, t) in self.units.iter().zip(&told) {
            if let Order::Move { to, water } = t.order {
                if t.success {
                    from[to] = if water { 0 } else { u.at + 1 };
                } else if t.has_path {
                    self.barred |= 1 << to;
                }
            }
        }
        for (u, t) in self.units.iter().zip(&told) {
            match t.order {
                _ if t.dislodged => self.out.push(Out { unit: *u, from: from[u.at] }),
                Order::Move { to, .. } if t.success => units.push(Unit { at: to, ..*u }),
                _ => units.push(*u),
            }
        }
        self.units = units;
        told
    }

    fn retreats(&mut self, board: &Board, texts: &Texts) {
        let closed = self.standing() | self.barred;
        let retreat = |o: &Out| match texts.of(o.unit.power, o.unit.at) {
            Some(Text::Order(Order::Move { to, water: false }))
                if board.joined(o.unit.fleet, o.unit.at, to) && !has(closed, to) && o.from != to + 1 =>
            {
                Some(to)
            }
            _ => None,
        };
        let ends: Vec<Option<usize>> = self.out.iter().map(retreat).collect();
        for (o, end) in self.out.iter().zip(&ends) {
            if let Some(t) = end {
                if ends.iter().filter(|e| *e == end).count() == 1 {
                    self.units.push(Unit { at: *t, ..o.unit });
                }
            }
        }
        self.out.clear();
        self.barred = 0;
    }

    fn owners(&mut self, board: &Board) {
        for u in &self.units {
            if board.centre[u.at] {
                self.owner[u.at] = u.power + 1;
            }
        }
    }

    fn winter(&mut self, board: &Board, texts: &Texts) {
        for p in 0..POWERS {
            let centres = self.owner.iter().filter(|&&o| o == p + 1).count();
            let mut own: Vec<usize> = self.units.iter().filter(|u| u.power == p).map(|u| u.at).collect();
            if own.len() > centres {
                own.sort_by_key(|&r| (!matches!(texts.of(p, r), Some(Text::Disband)), r));
                let gone = own[..own.len() - centres].iter().fold(0, |s: Regions, r| s | 1 << r);
                self.units.retain(|u| !has(gone, u.at));
                continue;
            }
            let mut lacking = centres - own.len();
            for r in 0..board.count() {
                let Some(Text::Build { fleet }) = texts.of(p, r) else { continue };
                if lacking > 0 && board.home[r] == p + 1 && self.owner[r] == p + 1 && !has(self.standing(), r) && board.can_be(fleet, r) {
                    self.units.push(Unit { power: p, at: r, fleet });
                    lacking -= 1;
                }
            }
        }
    }

    // One phase; what is told of it if it was one of moves.
    fn turn(&mut self, board: &Board, texts: &Texts) -> Option<Vec<(usize, Told)>> {
        let phase = self.phase;
        self.phase = (phase + 1) % 5;
        match phase {
            0 | 2 => {
                self.units.sort_by_key(|u| u.at);
                let places: Vec<usize> = self.units.iter().map(|u| u.at).collect();
                return Some(places.into_iter().zip(self.moves(board, texts)).collect());
            }
            1 => self.retreats(board, texts),
            3 => {
                self.retreats(board, texts);
                self.owners(board);
            }
            _ => self.winter(board, texts),
        }
        None
    }
}

// ---- calls

// The next so many words, a part at a time.
struct Words<'a>(&'a [u32]);

impl<'a> Words<'a> {
    fn take(&mut self, n: usize) -> Option<&'a [u32]> {
        let (front, rest) = self.0.split_at_checked(n)?;
        self.0 = rest;
        Some(front)
    }

    fn one(&mut self) -> Option<u32> {
        Some(self.take(1)?[0])
    }
}

struct Parts<'a> {
    regions: &'a [u32],
    march: &'a [u32],
    sail: &'a [u32],
    units: &'a [u32],
    owners: &'a [u32],
    phase: u32,
    out: &'a [u32],
    barred: &'a [u32],
}

fn parts(words: &[u32]) -> Option<Parts<'_>> {
    let mut w = Words(words);
    let counts = w.take(4)?;
    let limits = [128, 1024, 1024, 128];
    if counts.iter().zip(limits).any(|(&c, limit)| c > limit) {
        return None;
    }
    let [n, march, sail, units] = [counts[0], counts[1], counts[2], counts[3]].map(|c| c as usize);
    let mut p = Parts {
        regions: w.take(3 * n)?,
        march: w.take(2 * march)?,
        sail: w.take(2 * sail)?,
        units: w.take(3 * units)?,
        owners: w.take(n)?,
        phase: w.one()?,
        out: &[],
        barred: &[],
    };
    let out = w.one()?;
    if out > 128 {
        return None;
    }
    p.out = w.take(4 * out as usize)?;
    let barred = w.one()?;
    if barred > 128 {
        return None;
    }
    p.barred = w.take(barred as usize)?;
    if w.0.is_empty() { Some(p) } else { None }
}

fn joins(board: &Board, fleet: bool, words: &[u32]) -> Option<Vec<Regions>> {
    let mut sets = vec![0; board.count()];
    for e in words.chunks(2) {
        let (a, b) = (e[0] as usize, e[1] as usize);
        if a == b || !board.can_be(fleet, a) || !board.can_be(fleet, b) {
            return None;
        }
        sets[a] |= 1 << b;
        sets[b] |= 1 << a;
    }
    Some(sets)
}

fn place(board: &Board, w: &[u32], taken: &mut Regions) -> Option<Unit> {
    let u = Unit { power: w[0], at: w[1] as usize, fleet: w[2] == 1 };
    if w[2] > 1 || u.power >= POWERS || !board.can_be(u.fleet, u.at) || has(*taken, u.at) {
        return None;
    }
    *taken |= 1 << u.at;
    Some(u)
}

fn lawful(p: &Parts) -> Option<(Board, Game)> {
    let mut board = Board::default();
    for w in p.regions.chunks(3) {
        board.kind.push(match w[0] {
            0 => Kind::Land,
            1 => Kind::Coast,
            2 => Kind::Sea,
            _ => return None,
        });
        if w[1] > 1 || w[2] > POWERS {
            return None;
        }
        board.centre.push(w[1] == 1);
        board.home.push(w[2]);
    }
    board.march = joins(&board, false, p.march)?;
    board.sail = joins(&board, true, p.sail)?;
    let mut game = Game { phase: p.phase, owner: p.owners.to_vec(), ..Game::default() };
    let (mut units, mut out) = (0, 0);
    for w in p.units.chunks(3) {
        game.units.push(place(&board, w, &mut units)?);
    }
    for w in p.out.chunks(4) {
        if w[3] as usize > board.count() {
            return None;
        }
        game.out.push(Out { unit: place(&board, w, &mut out)?, from: w[3] as usize });
    }
    for &r in p.barred {
        if r as usize >= board.count() {
            return None;
        }
        game.barred |= 1 << r;
    }
    let owned = |(r, &o): (usize, &u32)| o == 0 || o <= POWERS && board.centre[r];
    let calm = p.phase == 1 || p.phase == 3 || p.out.is_empty() && p.barred.is_empty();
    if p.phase > 4 || !calm || !game.owner.iter().enumerate().all(owned) {
        return None;
    }
    Some((board, game))
}

fn turn_verdict(board: &Board, words: &[u32]) -> u32 {
    if words.len() % 5 != 0 || words.len() > 5 * 512 {
        return 1;
    }
    let good = |w: &[u32]| w[0] < POWERS && (w[1] as usize) < board.count() && w[2] < 9 && w[3] < 128 && w[4] < 128;
    if words.chunks(5).all(good) { 0 } else { 2 }
}

fn order_words(o: Order) -> [usize; 3] {
    match o {
        Order::Hold => [0, 0, 0],
        Order::Move { to, water: false } => [1, to, 0],
        Order::Move { to, water: true } => [2, to, 0],
        Order::SupportHold(r) => [3, r, 0],
        Order::SupportMove(f, t) => [4, f, t],
        Order::Convoy(f, t) => [5, f, t],
    }
}

fn show_last(out: &mut impl Write, told: &[(usize, Told)]) -> io::Result<()> {
    write!(out, "last")?;
    for (at, t) in told {
        let [k, a, b] = order_words(t.order);
        let flags = [t.success, t.dislodged, t.ring, t.stranded].map(|f| f as u32);
        write!(out, " {at} {k} {a} {b} {} {} {} {}", flags[0], flags[1], flags[2], flags[3])?;
    }
    writeln!(out)
}

fn show_game(out: &mut impl Write, game: &Game) -> io::Result<()> {
    let mut units = game.units.clone();
    units.sort_by_key(|u| u.at);
    write!(out, "game {}", units.len())?;
    for u in &units {
        write!(out, " {} {} {}", u.power, u.at, u.fleet as u32)?;
    }
    for o in &game.owner {
        write!(out, " {o}")?;
    }
    let mut gone = game.out.clone();
    gone.sort_by_key(|o| o.unit.at);
    write!(out, " {} {}", game.phase, gone.len())?;
    for o in &gone {
        write!(out, " {} {} {} {}", o.unit.power, o.unit.at, o.unit.fleet as u32, o.from)?;
    }
    write!(out, " {}", game.barred.count_ones())?;
    for r in (0..REGIONS).filter(|&r| has(game.barred, r)) {
        write!(out, " {r}")?;
    }
    writeln!(out)
}

// A call with its words, one space before each.
fn read_call(line: &str) -> Option<(bool, Vec<u32>)> {
    let mut parts = line.split(' ');
    let begin = match parts.next()? {
        "begin" => true,
        "turn" => false,
        _ => return None,
    };
    let digits = |w: &str| w.bytes().all(|b| b.is_ascii_digit());
    let words = parts.map(|w| if !w.is_empty() && digits(w) { Some(w.parse().unwrap_or(u32::MAX)) } else { None }).collect::<Option<Vec<u32>>>()?;
    Some((begin, words))
}

fn main() -> io::Result<()> {
    let mut out = BufWriter::new(io::stdout().lock());
    let (mut board, mut game) = (Board::default(), Game::default());
    for line in io::stdin().lock().split(b'\n') {
        let line = String::from_utf8(line?).unwrap_or_default();
        let Some((begin, words)) = read_call(&line) else {
            writeln!(out, "?")?;
            continue;
        };
        if begin {
            let Some(p) = parts(&words) else {
                writeln!(out, "begin 1")?;
                continue;
            };
            let Some(both) = lawful(&p) else {
                writeln!(out, "begin 3")?;
                continue;
            };
            (board, game) = both;
            writeln!(out, "begin 0")?;
        } else {
            let verdict = turn_verdict(&board, &words);
            writeln!(out, "turn {verdict}")?;
            if verdict != 0 {
                continue;
            }
            if let Some(told) = game.turn(&board, &Texts::read(&words)) {
                show_last(&mut out, &told)?;
            }
        }
        show_game(&mut out, &game)?;
    }
    out.flush()
}
