//! Request lines about a table and the file of one of its managers.

use crate::buckets::{BucketFile, Subject};
use crate::cells;
use crate::hex::hex;
use crate::rng::Rng;

/// The longest room that is lent.
const MAX_ROOM: usize = 1_048_576;
/// Plenty of room for a sample.
const SAMPLE_ROOM: usize = 400;

/// What questions about a file choose from. It need not be right: the files
/// may have faults.
#[derive(Clone, Debug)]
pub struct Asked {
    pub table: Vec<u8>,
    pub file: Vec<u8>,
    /// The sequence number of the file's manager.
    pub number: u32,
    /// Whether it is of IncrementalStMan.
    pub is_incremental: bool,
    /// The sequence numbers of all managers.
    pub numbers: Vec<u32>,
    pub rows: u64,
    /// Rows beside borders.
    pub border_rows: Vec<u64>,
    /// The positions of the manager's columns that have places, and of its
    /// others.
    pub own: [Vec<usize>; 2],
    /// Of those that have places, the texts with padding.
    pub texts: Vec<usize>,
    /// A plan for each column of the table.
    pub plans: Vec<[u64; 9]>,
    /// Plans with mistakes that are easily made.
    pub wrong_plans: Vec<[u64; 9]>,
    pub index_length: usize,
}

impl Asked {
    pub fn new<F: BucketFile>(subject: &Subject<F>) -> Self {
        let Subject { table, number, file } = subject;
        let plans: Vec<[u64; 9]> =
            (0..table.columns().len()).map(|position| file.plan(table, position)).collect();
        let wrong_plans = table
            .columns()
            .iter()
            .zip(&plans)
            .map(|(column, plan)| {
                let mut wrong = *plan;
                wrong[4] = cells::bits(column); // not rounded
                wrong[5] = column.info.set.into();
                wrong[6] = column.info.offset.into();
                wrong
            })
            .collect();
        let own = subject.own_columns();
        let (with_place, others): (Vec<usize>, Vec<usize>) =
            own.iter().partition(|position| file.has_place(&table.columns()[**position]));
        let mut texts = with_place.clone();
        texts.retain(|position| cells::has_padding(&table.columns()[*position]));
        Self {
            table: table.encode(),
            file: file.encode(),
            number: *number,
            is_incremental: F::IS_INCREMENTAL,
            numbers: table.managers().iter().map(|manager| manager.number).collect(),
            rows: table.rows(),
            border_rows: file.border_rows(),
            own: [with_place, others],
            texts,
            plans,
            wrong_plans,
            index_length: file.index_length(),
        }
    }

    /// The line of a question: its word, the table and the file, and the
    /// fields after them. The check has its sequence number between them.
    pub fn check(&self, number: u64, room: usize) -> String {
        format!("check {} {number} {} {room}", hex(&self.table), hex(&self.file))
    }

    pub fn plan(&self, position: u64, room: usize) -> String {
        self.line("plan", &format!("{position} {room}"))
    }

    /// Place, Place in one bucket, view or padded view, by their word.
    pub fn cell(&self, word: &str, row: u64, position: u64, room: usize) -> String {
        self.line(word, &format!("{row} {position} {room}"))
    }

    /// Place, view or padded view by plan, by their word.
    pub fn planned_cell(&self, word: &str, row: u64, plan: &[u64; 9], room: usize) -> String {
        let fields: Vec<String> = plan.iter().map(u64::to_string).collect();
        self.line(word, &format!("{row} {} {room}", fields.join(",")))
    }

    fn line(&self, word: &str, rest: &str) -> String {
        format!("{word} {} {} {rest}", hex(&self.table), hex(&self.file))
    }

    /// One of the questions that check the file, each in its turn, about a
    /// column that has places, a text if there is one. Place in one bucket, which has none of
    /// StandardStMan, is about rows of all buckets.
    pub fn in_turn(&self, turn: usize) -> String {
        let (row, column) = (0, self.texts.first().copied().unwrap_or(self.own[0][0]));
        let (position, plan, room) = (column as u64, &self.plans[column], SAMPLE_ROOM);
        let every = if self.is_incremental { 7 } else { 101 };
        if turn % every == every - 1 {
            let turn = turn / every;
            let row = self.border_rows.get(turn % self.border_rows.len().max(1));
            let room = [0, 1, 7, room][turn % 4];
            return self.cell("place1", row.copied().unwrap_or(0), position, room);
        }
        match turn % 8 {
            0 => self.check(self.number.into(), room),
            1 => self.plan(position, room),
            2 => self.cell("place", row, position, room),
            3 => self.cell("view", row, position, room),
            4 => self.planned_cell("placeplan", row, plan, room),
            5 => self.planned_cell("viewplan", row, plan, room),
            6 => self.cell("padded", row, position, room),
            _ => self.planned_cell("paddedplan", row, plan, room),
        }
    }

    /// A view or padded view, by position or by plan.
    pub fn view_question(&self, rng: &mut Rng) -> String {
        let (row, position, room) = (self.some_row(rng), self.viewed_position(rng), self.room(rng));
        match rng.below(4) {
            0 => self.cell("view", row, position, room),
            1 => self.cell("padded", row, position, room),
            number => {
                let word = ["viewplan", "paddedplan"][number - 2];
                self.planned_cell(word, row, &self.some_plan(rng, position), room)
            }
        }
    }

    /// Some question.
    pub fn question(&self, rng: &mut Rng) -> String {
        let room = self.room(rng);
        // Without columns only the check comes to the file.
        let no_columns = self.own.iter().all(Vec::is_empty);
        let in_one_bucket = if self.is_incremental { 8 } else { 1 };
        if !no_columns && rng.chance(in_one_bucket, 40) {
            return self.cell("place1", self.some_row(rng), self.some_position(rng), room);
        }
        let word = if no_columns && rng.chance(3, 4) { 0 } else { rng.below(46) };
        match word {
            0..=8 => self.check(self.some_number(rng), room),
            9..=14 => self.plan(self.some_position(rng), room),
            15..=22 => self.cell("place", self.some_row(rng), self.some_position(rng), room),
            23..=28 => self.cell("view", self.some_row(rng), self.viewed_position(rng), room),
            29..=33 => {
                let position = self.some_position(rng);
                let plan = self.some_plan(rng, position);
                self.planned_cell("placeplan", self.some_row(rng), &plan, room)
            }
            34..=38 => {
                let position = self.viewed_position(rng);
                let plan = self.some_plan(rng, position);
                self.planned_cell("viewplan", self.some_row(rng), &plan, room)
            }
            39..=41 => self.cell("padded", self.some_row(rng), self.viewed_position(rng), room),
            42..=44 => {
                let position = self.viewed_position(rng);
                let plan = self.some_plan(rng, position);
                self.planned_cell("paddedplan", self.some_row(rng), &plan, room)
            }
            _ => match rng.below(3) {
                0 => format!("describe {}", hex(&self.table)),
                1 => format!("listing {}", hex(&self.table)),
                _ => format!("column {} {}", hex(&self.table), hex(b"C0")),
            },
        }
    }

    fn room(&self, rng: &mut Rng) -> usize {
        // A stated length may be out of range.
        let length = if self.index_length <= 65_536 { self.index_length } else { 200 };
        let room = match rng.below(20) {
            0..=9 => length,
            10..=15 => length + rng.within(1..=40),
            16 => length.saturating_sub(1),
            17 => 0,
            18 => rng.below(length + 1),
            _ => length + 300,
        };
        room.min(MAX_ROOM)
    }

    fn some_number(&self, rng: &mut Rng) -> u64 {
        let own = u64::from(self.number);
        match rng.below(36) {
            0 if !self.numbers.is_empty() => rng.pick(&self.numbers).into(),
            1 => own + 1,
            2 => own ^ 1,
            3 => own | 1 << 32,
            4 => rng.pick(&[u64::MAX, 1 << 32, 1 << 63 | own, 255, u64::from(u32::MAX)]),
            _ => own,
        }
    }

    fn some_position(&self, rng: &mut Rng) -> u64 {
        let columns = self.plans.len() as u64;
        let [with_place, others] = &self.own;
        let own = if with_place.is_empty() { 0 } else { rng.pick(with_place) as u64 };
        match rng.below(30) {
            0 | 1 => rng.below(columns as usize + 1) as u64,
            2 => columns,
            3 => own | 1 << 32,
            4 => rng.pick(&[u64::MAX, columns + 1, 64, 1 << 63 | own, 256 + own]),
            5 if !others.is_empty() => rng.pick(others) as u64,
            _ => own,
        }
    }

    /// Often that of a text, if there is one.
    fn viewed_position(&self, rng: &mut Rng) -> u64 {
        if !self.texts.is_empty() && rng.chance(1, 2) {
            return rng.pick(&self.texts) as u64;
        }
        self.some_position(rng)
    }

    fn some_row(&self, rng: &mut Rng) -> u64 {
        let rows = self.rows;
        let row = match rng.below(3) {
            0 if rows > 0 => rng.number() % rows,
            1 if rows > 0 => rows - 1,
            _ if !self.border_rows.is_empty() => rng.pick(&self.border_rows),
            _ => 0,
        };
        match rng.below(24) {
            0 => rows,
            1 => rows.wrapping_add(1),
            2 => row | 1 << 32,
            3 => rng.pick(&[u64::MAX, 1 << 63 | row, 1 << 62, 1 << 61 | row, rows | 1 << 32]),
            4 => 0,
            5 => (1 << rng.pick(&[31, 32, 62, 63])) + rng.below(3) as u64 - 1,
            6 => row & 0xFFFF_FFFF, // and the row have the same low half
            7 => row ^ 1 << rng.within(32..=33),
            _ => row,
        }
    }

    /// The fresh plan of a position, or one that is stale in a field.
    fn some_plan(&self, rng: &mut Rng, position: u64) -> [u64; 9] {
        let Some(fresh) = self.plans.get(position as usize).filter(|plan| plan[0] == position)
        else {
            // No column: the other fields may be those of one.
            let mut plan = if self.plans.is_empty() { [0; 9] } else { rng.pick(&self.plans) };
            plan[0] = position;
            return plan;
        };
        let mut plan = *fresh;
        match rng.below(20) {
            0..=5 => {
                let field = rng.below(9);
                plan[field] = match rng.below(6) {
                    0 => plan[field].wrapping_add(1),
                    1 => plan[field].wrapping_sub(1),
                    2 => plan[field] | 1 << 32,
                    3 => 0,
                    4 => plan[field] ^ 1 << rng.below(64),
                    _ => rng.pick(&[u64::MAX, 1, 16, 64]),
                };
            }
            6 => plan = self.wrong_plans[position as usize],
            7 => {
                // Another column's plan for this position.
                plan = rng.pick(&self.plans);
                plan[0] = position;
            }
            8 => plan[0] = rng.below(self.plans.len() + 1) as u64,
            9 => {
                let value = rng.pick(&[0, 1, u64::MAX]);
                plan[1..].fill(value);
            }
            _ => {}
        }
        plan
    }
}
