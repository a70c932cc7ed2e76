//! Watches demand 3 along a run that starts from a fresh hall and is changed
//! by its steps only: what must hold of it whatever the two makes agree on.

use twin::layout::*;
use twin::Step;

use crate::view::*;

/// A line as its five bytes.
type Line = [u8; LINE_SIZE];
const MISSING: Line = [0; LINE_SIZE];
const BLANK: Line = [NIL, 0, 0, 0, 0];

/// What the steps so far have shown.
pub struct Watch {
    before: Vec<u8>,
    offered: Vec<u32>,
    sent: usize,
    /// Per rack the line that any reader had at any moment.
    seen: [Line; MAX_RACKS],
    pub lines_learned: u64,
    pub readings_learned: u64,
    /// Steps by which a line was learned in a round above Zero.
    pub learned_above_zero: u64,
    /// Steps that the watch has passed, and those granted among them.
    pub passed: u64,
    pub granted: u64,
    /// The rounds in which there were votes.
    pub voted: Vec<[u32; 3]>,
}

impl Watch {
    pub fn new(hall: &[u8]) -> Watch {
        Watch {
            before: hall.to_vec(),
            offered: vec![],
            sent: 0,
            seen: [MISSING; MAX_RACKS],
            lines_learned: 0,
            readings_learned: 0,
            learned_above_zero: 0,
            passed: 0,
            granted: 0,
            voted: vec![],
        }
    }

    /// Looks at the hall after a step; an error says which promise is broken.
    pub fn after(&mut self, step: &Step, answer: u32, hall: &[u8]) -> Result<(), String> {
        if answer != 0 {
            self.refused(answer, hall)?;
        } else {
            self.take(step, hall)?;
            self.granted += 1;
        }
        self.passed += 1;
        Ok(())
    }

    fn refused(&self, answer: u32, hall: &[u8]) -> Result<(), String> {
        if [1, 2, 3, 9].contains(&answer) {
            return Err(format!("refusal {answer} in an undamaged hall"));
        }
        if hall != self.before {
            return Err("a refused step changed the hall".into());
        }
        Ok(())
    }

    fn take(&mut self, step: &Step, hall: &[u8]) -> Result<(), String> {
        let code = step[0];
        if code == 1 {
            self.offered.push(step[6]);
        }
        let row = row_place(step, hall);
        let posted = POST_AT + self.sent;
        let may_change =
            |place: &usize| *place == row || sends(code) && (*place == 0 || *place == posted);
        for place in (0..HALL_BLOCKS).filter(|place| !may_change(place)) {
            if block(hall, place) != block(&self.before, place) {
                return Err(format!("step {code} changed block {place}"));
            }
        }
        self.sent += usize::from(sends(code));
        if count(hall) != self.sent {
            return Err(format!("{} messages sent, the count is {}", self.sent, count(hall)));
        }
        if sort(code) == 3 {
            self.page(step, row, hall)?;
        }
        if matches!(code, 9 | 10) {
            let vrnd = round(block(hall, row), VRND);
            if !self.voted.contains(&vrnd) {
                self.voted.push(vrnd);
            }
        }
        let changed: &[usize] = if sends(code) { &[row, 0, posted] } else { &[row] };
        for &place in changed {
            put(&mut self.before, place, block(hall, place));
        }
        Ok(())
    }

    /// The page of the reader whose step was granted.
    fn page(&mut self, step: &Step, row: usize, hall: &[u8]) -> Result<(), String> {
        let racks = usize::from(hall[RACKS]);
        let (old, new) = (block(&self.before, row), block(hall, row));
        let expected = if step[0] == 13 { rule_for_learning(old, step) } else { page(old, PAGE) };
        if page(new, PAGE) != expected {
            return Err("the lines gained are not those of the rule for learning".into());
        }
        for rack in 0..racks {
            let (was, is) = (line(old, PAGE, rack), line(new, PAGE, rack));
            if was != MISSING && was != is {
                return Err(format!("the line of rack {rack} did not stay as it was"));
            }
            if is == was {
                continue;
            }
            self.lines_learned += 1;
            self.learned_above_zero += u64::from(step[3] > 0);
            if is != BLANK {
                self.readings_learned += 1;
                let reading = u32::from_le_bytes([is[1], is[2], is[3], is[4]]);
                if !self.offered.contains(&reading) {
                    return Err(format!("reading {reading} was not offered before"));
                }
            }
            if self.seen[rack] != MISSING && self.seen[rack] != is {
                return Err(format!("two readers differ on the line of rack {rack}"));
            }
            self.seen[rack] = is;
        }
        if self.seen[..racks].iter().all(|&line| line == BLANK) {
            return Err("all pages laid together are blank for every rack".into());
        }
        Ok(())
    }
}

type Page = [Line; MAX_RACKS];

fn line(block: &Block, page: usize, rack: usize) -> Line {
    let at = page + rack * LINE_SIZE;
    block[at..at + LINE_SIZE].try_into().expect("a whole line")
}

fn page(block: &Block, at: usize) -> Page {
    std::array::from_fn(|rack| line(block, at, rack))
}

/// Step 13 word by word: every majority of the boxes held at exactly that
/// round, the longest page that is a prefix of all its extended pages, and
/// all of those joined to the reader's page.
fn rule_for_learning(row: &Block, step: &Step) -> Page {
    let wanted = [step[3], step[4], step[5]];
    let boxes = usize::from(row[BOXES]);
    let held: Vec<Page> = (0..boxes)
        .map(|held_box| HELD + held_box * HELD_SIZE)
        .filter(|&slot| row[slot] == 1 && round(row, slot + HELD_ROUND) == wanted)
        .map(|slot| {
            let mut extended = page(row, slot + HELD_PAGE);
            for (rack, line) in extended.iter_mut().enumerate() {
                let blank = BLANKS + rack * BLANK_SIZE;
                let is_blank = row[blank] == 1 && round(row, blank + BLANK_ROUND) == wanted;
                if *line == MISSING && is_blank && wanted[2] >> rack & 1 == 1 {
                    *line = BLANK;
                }
            }
            extended
        })
        .collect();
    let mut learned = page(row, PAGE);
    for some in 0u32..1 << held.len() {
        if (some.count_ones() as usize) < boxes / 2 + 1 {
            continue;
        }
        let mut members = (0..held.len()).filter(|member| some >> member & 1 == 1);
        let first = members.next().map_or([MISSING; MAX_RACKS], |member| held[member]);
        let prefix = members.fold(first, |prefix, member| {
            std::array::from_fn(|rack| {
                if prefix[rack] == held[member][rack] {
                    prefix[rack]
                } else {
                    MISSING
                }
            })
        });
        for (line, new) in learned.iter_mut().zip(prefix) {
            if new != MISSING {
                *line = new;
            }
        }
    }
    learned
}
