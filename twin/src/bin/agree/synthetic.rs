//! Rows and messages made up from few rounds and few lines, so that pages
//! clash, rounds share n and c, and every rule is met from both sides. Their
//! check words are right, so that the rules decide.

use twin::layout::*;
use twin::SetupNumbers;

use crate::numbers;
use crate::rng::Rng;
use crate::view::seal;

const ROWS: [u8; 4] = [COORDINATOR, BOX, RACK, READER];
const MESSAGES: [u8; 6] = [PROPOSE, ONE_A, ONE_B, TWO_S, TWO_A, TWO_B];

/// How often what a rule asks for is looked after; else it is left to chance.
const CARE: usize = 96;

type Round = [u8; ROUND_SIZE];

/// What the blocks of one made-up hall are put together from.
#[derive(Clone, Copy)]
pub struct Stock {
    front: [u8; BODY],
    /// Round Zero, then four others; the last two share n and c.
    rounds: [Round; 5],
    /// How often, in percent, a line is absent, and a present one is Nil, and
    /// a reading is the second of the two that there are.
    absent: usize,
    nil: usize,
    second: usize,
}

impl Stock {
    pub fn new(rng: &mut Rng, [instance, setup @ ..]: SetupNumbers) -> Stock {
        let mut front = [0; BODY];
        front[..2].copy_from_slice(&(instance as u16).to_le_bytes());
        for (at, number) in (RACKS..AGENT).zip(setup) {
            front[at] = number as u8;
        }
        let any_cf = |rng: &mut Rng| numbers::cf(rng, front[RACKS].into()) as u8;
        let mut rounds = [[0, 0, front[C0], front[CF0]]; 5];
        for round in &mut rounds[1..4] {
            let c = rng.below(front[COORDINATORS].into()) as u8;
            *round = [rng.pick(&[1, 1, 2, 255]), rng.pick(&[0, 0, 0, 1, 255]), c, any_cf(rng)];
        }
        rounds[4] = rounds[3];
        rounds[4][3] = any_cf(rng);
        Stock {
            front,
            rounds,
            absent: rng.pick(&[10, 30, 60]),
            nil: rng.pick(&[10, 40, 70]),
            second: rng.pick(&[5, 20, 50]),
        }
    }

    pub fn racks(&self) -> usize {
        self.front[RACKS].into()
    }

    fn zero(&self) -> Round {
        self.rounds[0]
    }

    /// A row of a given kind; `agent` is its place.
    pub fn row(&self, rng: &mut Rng, kind: u8, agent: usize) -> Block {
        let mut block = self.begin(kind, agent as u8);
        match kind {
            COORDINATOR => self.coordinator(rng, &mut block),
            BOX => {
                let (mut rnd, mut vrnd) = (rng.pick(&self.rounds), rng.pick(&self.rounds));
                if rank(vrnd) > rank(rnd) && rng.percent(CARE) {
                    (rnd, vrnd) = (vrnd, rnd);
                }
                set_round(&mut block, ROUND, rnd);
                self.vote(rng, &mut block, VRND, vrnd);
            }
            RACK => {
                set_round(&mut block, ROUND, rng.pick(&self.rounds));
                self.line(rng, &mut block, AFTER_ROUND);
            }
            _ => self.reader(rng, &mut block),
        }
        seal(&mut block);
        block
    }

    pub fn row_of(&self, rng: &mut Rng, kind: u8) -> Block {
        let agent = self.agent(rng, kind);
        self.row(rng, kind, agent)
    }

    pub fn any_row(&self, rng: &mut Rng) -> Block {
        let kind = rng.pick(&ROWS);
        self.row_of(rng, kind)
    }

    pub fn any_message(&self, rng: &mut Rng) -> Block {
        let kind = rng.pick(&MESSAGES);
        let mut block = self.begin(kind, 0);
        block[AGENT] = self.agent(rng, kind) as u8;
        let zero_too = !matches!(kind, ONE_A | ONE_B | TWO_S) || !rng.percent(CARE);
        let round = rng.pick(if zero_too { &self.rounds } else { &self.rounds[1..] });
        set_round(&mut block, ROUND, round);
        match kind {
            PROPOSE => set_word(&mut block, BODY, self.reading(rng)),
            ONE_A => {}
            ONE_B => {
                let vrnd = self.below(rng, round);
                self.vote(rng, &mut block, VRND, vrnd);
            }
            TWO_S => self.whole_page(rng, &mut block, AFTER_ROUND),
            TWO_A => {
                let present = Stock { absent: 2, ..*self };
                present.line(rng, &mut block, AFTER_ROUND);
                // A rack that the round is fast for, if the first choice isn't.
                if u32::from(round[3]) >> block[AGENT] & 1 == 0 && rng.percent(CARE) {
                    block[AGENT] = round[3].trailing_zeros() as u8;
                }
            }
            _ => self.valued_page(rng, &mut block, AFTER_ROUND),
        }
        // A message of a coordinator is of its own round.
        if matches!(kind, ONE_A | TWO_S) && rng.percent(CARE) {
            block[AGENT] = round[2];
        }
        seal(&mut block);
        block
    }

    /// The number of some agent of the sort that has this row or sends this
    /// message, and now and then of one that doesn't exist.
    fn agent(&self, rng: &mut Rng, kind: u8) -> usize {
        let agents = match kind {
            COORDINATOR | ONE_A | TWO_S => COORDINATORS,
            BOX | ONE_B | TWO_B => BOXES,
            READER => READERS,
            _ => RACKS,
        };
        let one_more = usize::from(rng.percent(2));
        rng.below(usize::from(self.front[agents]) + one_more)
    }

    fn begin(&self, kind: u8, agent: u8) -> Block {
        let mut block = [0; BLOCK];
        block[..BODY].copy_from_slice(&self.front);
        block[KIND] = kind;
        block[AGENT] = agent;
        block
    }

    fn coordinator(&self, rng: &mut Rng, block: &mut Block) {
        let mut crnd = rng.pick(&self.rounds);
        if crnd != self.zero() && rng.percent(CARE) {
            crnd[2] = block[AGENT];
        }
        set_round(block, ROUND, crnd);
        if rng.percent(15) {
            block[CVAL] = 1;
            self.whole_page(rng, block, CVAL + 1);
        }
        for heard_box in 0..self.slots(rng, BOXES) {
            if crnd != self.zero() && rng.percent(80) {
                let slot = HEARD + heard_box * HEARD_SIZE;
                block[slot] = 1;
                let vrnd = self.below(rng, crnd);
                self.vote(rng, block, slot + HEARD_VRND, vrnd);
            }
        }
    }

    fn reader(&self, rng: &mut Rng, block: &mut Block) {
        if rng.percent(60) {
            self.page(rng, block, PAGE);
            let trivial = (0..self.racks()).all(|rack| block[PAGE + rack * LINE_SIZE] == NIL);
            if trivial && rng.percent(CARE) {
                block[PAGE + rng.below(self.racks()) * LINE_SIZE] = ABSENT;
            }
        }
        let usual = rng.pick(&self.rounds);
        let pick = |rng: &mut Rng| if rng.percent(80) { usual } else { rng.pick(&self.rounds) };
        for held_box in 0..self.slots(rng, BOXES) {
            if rng.percent(80) {
                let slot = HELD + held_box * HELD_SIZE;
                block[slot] = 1;
                set_round(block, slot + HELD_ROUND, pick(rng));
                self.valued_page(rng, block, slot + HELD_PAGE);
            }
        }
        for rack in 0..self.slots(rng, RACKS) {
            if rng.percent(40) {
                let slot = BLANKS + rack * BLANK_SIZE;
                block[slot] = 1;
                set_round(block, slot + BLANK_ROUND, pick(rng));
            }
        }
    }

    /// How many slots may be filled: those of agents that exist, and now and
    /// then one more where there is room for it.
    fn slots(&self, rng: &mut Rng, agents: usize) -> usize {
        let most = if agents == BOXES { MAX_BOXES } else { MAX_RACKS };
        let one_more = usize::from(rng.percent(2));
        (usize::from(self.front[agents]) + one_more).min(most)
    }

    /// A round that is mostly below another one.
    fn below(&self, rng: &mut Rng, round: Round) -> Round {
        let other = rng.pick(&self.rounds);
        if rank(other) >= rank(round) && rng.percent(CARE) {
            self.zero()
        } else {
            other
        }
    }

    /// A vrnd and its vote; no vote means vrnd Zero.
    fn vote(&self, rng: &mut Rng, block: &mut Block, at: usize, vrnd: Round) {
        let none = rng.percent(if vrnd == self.zero() { 60 } else { 10 });
        let vrnd = if none && rng.percent(CARE) { self.zero() } else { vrnd };
        set_round(block, at, vrnd);
        if !none {
            block[at + ROUND_SIZE] = 1;
            self.valued_page(rng, block, at + ROUND_SIZE + 1);
        }
    }

    fn page(&self, rng: &mut Rng, block: &mut Block, at: usize) {
        for rack in 0..self.slots(rng, RACKS) {
            self.line(rng, block, at + rack * LINE_SIZE);
        }
    }

    fn valued_page(&self, rng: &mut Rng, block: &mut Block, at: usize) {
        self.page(rng, block, at);
        let valued = (0..self.racks()).any(|rack| block[at + rack * LINE_SIZE] == READING);
        if !valued && rng.percent(CARE) {
            let line = at + rng.below(self.racks()) * LINE_SIZE;
            block[line] = READING;
            set_word(block, line + 1, self.reading(rng));
        }
    }

    /// Empty, or complete.
    fn whole_page(&self, rng: &mut Rng, block: &mut Block, at: usize) {
        if rng.percent(70) {
            let complete = Stock { absent: 0, ..*self };
            complete.valued_page(rng, block, at);
        }
    }

    fn line(&self, rng: &mut Rng, block: &mut Block, at: usize) {
        if rng.percent(self.absent) {
            return;
        }
        if rng.percent(self.nil) {
            block[at] = NIL;
            return;
        }
        block[at] = READING;
        set_word(block, at + 1, self.reading(rng));
    }

    fn reading(&self, rng: &mut Rng) -> u32 {
        if rng.percent(self.second) {
            459_602
        } else {
            65_536
        }
    }
}

/// By n, then c.
fn rank([low, high, c, _]: Round) -> [u8; 3] {
    [high, low, c]
}

fn set_round(block: &mut Block, at: usize, round: Round) {
    block[at..at + ROUND_SIZE].copy_from_slice(&round);
}
