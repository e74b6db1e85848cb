//! Places the cells of a block on a grid so that its signals come in time: what ../placer.c does, move by move.
//!
//! Each arc of the block is a cell. A signal has its pin at a fixed place; a cell stands on a place of its own and is
//! wired to the pins of the signals that it leads from and to. The longer the wire, the longer the delay: a cell's own
//! delay is its row, and that of its wires is its trim. A move tries a cell on a free place under a trial, times the
//! block, and keeps the place unless the worst slack is worse for it. At last the false sets are emptied, to show what
//! they were worth.
//!
//!     placer FOLDER [MOVES]

mod door;
mod timer;

use door::LiveArc;
use std::error::Error;
use std::path::Path;
use std::time::Instant;
use timer::{Refusal, Timer};

/// Places in a row of the grid.
const SIDE: usize = 32;
const PLACES: usize = SIDE * SIDE;
/// Signals in a stage of the block.
const WIDTH: usize = 16;
const SETS: i32 = 16;
const STEP_TICKS: i32 = 4;

struct Dice {
    state: u32,
}

impl Dice {
    fn draw(&mut self, sides: usize) -> usize {
        self.state ^= self.state << 13;
        self.state ^= self.state >> 17;
        self.state ^= self.state << 5;
        self.state as usize % sides
    }
}

/// The least slack of all nodes, and the sum of the slacks below zero. The greater score is the better one.
#[derive(Clone, Copy, PartialEq, Eq, PartialOrd, Ord)]
struct Score {
    worst: i32,
    lateness: i64,
}

fn score(slacks: impl Iterator<Item = (usize, i32)>) -> Score {
    let none = Score {
        worst: 1_000_000,
        lateness: 0,
    };
    slacks.fold(none, |score, (_, slack)| Score {
        worst: score.worst.min(slack),
        lateness: score.lateness + i64::from(slack.min(0)),
    })
}

fn apart(place: usize, other: usize) -> usize {
    (place / SIDE).abs_diff(other / SIDE) + (place % SIDE).abs_diff(other % SIDE)
}

/// The pins of a stage stand in one column.
fn pin_of(signal: u8) -> usize {
    let (stage, line) = (usize::from(signal) / WIDTH, usize::from(signal) % WIDTH);
    2 * line * SIDE + 3 * stage + 1
}

fn wire_ticks(cell: &LiveArc, place: usize) -> i32 {
    STEP_TICKS * (apart(pin_of(cell.from), place) + apart(place, pin_of(cell.to))) as i32
}

struct Placer {
    timer: Timer,
    dice: Dice,
    cells: Vec<LiveArc>,
    place_of: Vec<usize>,
    taken: Vec<bool>,
    worst_path: Vec<u16>,
    score: Score,
}

impl Placer {
    /// Every cell at random.
    fn new(mut timer: Timer) -> Result<Placer, Refusal> {
        let mut dice = Dice { state: 2_463_534_242 };
        let cells = timer.arcs()?;
        let mut taken = vec![false; PLACES];
        let mut place_of = Vec::new();
        for (number, cell) in cells.iter().enumerate() {
            let place = draw_free_place(&mut dice, &taken);
            timer.set_trim(number, wire_ticks(cell, place))?;
            taken[place] = true;
            place_of.push(place);
        }
        timer.time()?;
        let score = score(timer.slacks());
        let mut placer = Placer {
            timer,
            dice,
            cells,
            place_of,
            taken,
            worst_path: Vec::new(),
            score,
        };
        placer.note_worst_path()?;
        Ok(placer)
    }

    /// Notes the cells on the path with the least slack, as the tables of the last timing show it.
    fn note_worst_path(&mut self) -> Result<(), Refusal> {
        let worst = self.timer.slacks().find(|&(_, slack)| slack == self.score.worst);
        self.worst_path = match worst {
            Some((node, _)) => self.timer.trace(node)?,
            None => Vec::new(),
        };
        Ok(())
    }

    /// Most moves are of a cell on the worst path.
    fn draw_cell(&mut self) -> usize {
        if !self.worst_path.is_empty() && self.dice.draw(4) > 0 {
            usize::from(self.worst_path[self.dice.draw(self.worst_path.len())])
        } else {
            self.dice.draw(self.cells.len())
        }
    }

    /// Tries a cell on a place, and leaves everything as it was.
    fn try_place(&mut self, cell: usize, place: usize) -> Result<Score, Refusal> {
        let ticks = wire_ticks(&self.cells[cell], place);
        let mut trial = self.timer.trial(cell, ticks)?;
        trial.time()?;
        Ok(score(trial.slacks()))
    }

    fn keep(&mut self, cell: usize, place: usize, score: Score) -> Result<(), Refusal> {
        self.score = score;
        self.note_worst_path()?;
        self.taken[self.place_of[cell]] = false;
        self.taken[place] = true;
        self.place_of[cell] = place;
        self.timer.set_trim(cell, wire_ticks(&self.cells[cell], place))
    }

    /// Makes so many moves, and answers how many were kept.
    fn improve(&mut self, moves: usize) -> Result<usize, Refusal> {
        let mut kept = 0;
        for _ in 0..moves {
            let cell = self.draw_cell();
            let place = draw_free_place(&mut self.dice, &self.taken);
            let tried = self.try_place(cell, place)?;
            if tried >= self.score {
                self.keep(cell, place, tried)?;
                kept += 1;
            }
        }
        Ok(kept)
    }

    /// The worst slack if signals took the false paths too.
    fn worst_without_sets(mut self) -> Result<i32, Refusal> {
        for set in 0..SETS {
            self.timer.clear(set)?;
        }
        self.timer.time()?;
        Ok(score(self.timer.slacks()).worst)
    }
}

fn draw_free_place(dice: &mut Dice, taken: &[bool]) -> usize {
    loop {
        let place = dice.draw(PLACES);
        if !taken[place] {
            return place;
        }
    }
}

fn load_block(folder: &Path) -> Result<Timer, Box<dyn Error>> {
    let mut timer = Timer::new();
    timer.load_arcs(&std::fs::read(folder.join("arcs.txt"))?)?;
    timer.load_bounds(&std::fs::read(folder.join("bounds.txt"))?)?;
    timer.load_delays(&std::fs::read(folder.join("delays.txt"))?)?;
    timer.load_false_sets(&std::fs::read(folder.join("false.txt"))?)?;
    Ok(timer)
}

fn main() -> Result<(), Box<dyn Error>> {
    let words: Vec<String> = std::env::args().collect();
    let folder = words.get(1).map_or(".", String::as_str);
    let moves = words.get(2).map_or(Ok(5000), |word| word.parse())?;
    let mut placer = Placer::new(load_block(Path::new(folder))?)?;
    println!("{} cells on {PLACES} places", placer.cells.len());
    println!("worst slack before: {}", placer.score.worst);
    let start = Instant::now();
    let kept = placer.improve(moves)?;
    let spent = start.elapsed().as_secs_f64();
    println!("worst slack after:  {} ({kept} of {moves} moves kept)", placer.score.worst);
    println!("were the false paths taken: {}", placer.worst_without_sets()?);
    println!("moves per second: {:.0}", moves as f64 / spent);
    Ok(())
}
