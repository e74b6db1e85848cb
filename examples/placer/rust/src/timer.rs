//! The timer behind the door, with the memory that it is lent: each call of the door that is made here keeps what its
//! header asks, since slices know their lengths and a graph is made once and moved as a whole.

use crate::door::*;
use std::fmt;

const LINES: usize = 1024;
const LIST: usize = 255;

/// The number of a refusal, and the line of a refused file.
#[derive(Debug)]
pub struct Refusal {
    number: u32,
    line: u64,
}

impl fmt::Display for Refusal {
    fn fmt(&self, f: &mut fmt::Formatter<'_>) -> fmt::Result {
        write!(f, "refused by {}, line {}", self.number, self.line)
    }
}

impl std::error::Error for Refusal {}

fn accepted(answer: Answer) -> Result<Answer, Refusal> {
    match answer.number {
        0 => Ok(answer),
        number => Err(Refusal {
            number,
            line: answer.line,
        }),
    }
}

pub struct Timer {
    graph: Graph,
    rows: [Delay; ARCS],
    lines: [Line; LINES],
    arrivals: [Ticks; LINES],
    required: [Ticks; LINES],
    nodes: [Node; NODES],
    slacks: [Ticks; NODES],
}

impl Timer {
    pub fn new() -> Timer {
        let mut timer = Timer {
            graph: Graph::zeroed(),
            rows: [Delay::default(); ARCS],
            lines: [Line::default(); LINES],
            arrivals: [Ticks::default(); LINES],
            required: [Ticks::default(); LINES],
            nodes: [Node::default(); NODES],
            slacks: [Ticks::default(); NODES],
        };
        unsafe { ripotyngue_new(&mut timer.graph) };
        timer
    }

    pub fn load_arcs(&mut self, bytes: &[u8]) -> Result<(), Refusal> {
        accepted(unsafe { ripotyngue_load_arcs(&mut self.graph, bytes.as_ptr(), bytes.len()) })?;
        Ok(())
    }

    pub fn load_bounds(&mut self, bytes: &[u8]) -> Result<(), Refusal> {
        accepted(unsafe { ripotyngue_load_bounds(&mut self.graph, bytes.as_ptr(), bytes.len()) })?;
        Ok(())
    }

    pub fn load_false_sets(&mut self, bytes: &[u8]) -> Result<(), Refusal> {
        accepted(unsafe { ripotyngue_load_false_sets(&mut self.graph, bytes.as_ptr(), bytes.len()) })?;
        Ok(())
    }

    pub fn load_delays(&mut self, bytes: &[u8]) -> Result<(), Refusal> {
        let rows = self.rows.as_mut_ptr();
        accepted(unsafe { ripotyngue_load_delays(bytes.as_ptr(), bytes.len(), rows, ARCS) })?;
        Ok(())
    }

    /// All arcs, if no number's arc was dropped.
    pub fn arcs(&self) -> Result<Vec<LiveArc>, Refusal> {
        let taken = accepted(unsafe { ripotyngue_taken(&self.graph) })?.value;
        (0..taken as i32).map(|number| self.arc(number)).collect()
    }

    fn arc(&self, number: i32) -> Result<LiveArc, Refusal> {
        let mut found = LiveArc::default();
        accepted(unsafe { ripotyngue_arc(&self.graph, number, &mut found) })?;
        Ok(found)
    }

    pub fn set_trim(&mut self, arc: usize, ticks: i32) -> Result<(), Refusal> {
        accepted(unsafe { ripotyngue_set_trim(&mut self.graph, arc as i32, ticks) })?;
        Ok(())
    }

    pub fn clear(&mut self, set: i32) -> Result<(), Refusal> {
        accepted(unsafe { ripotyngue_clear(&mut self.graph, set) })?;
        Ok(())
    }

    /// Sets an arc's trim until the guard goes.
    pub fn trial(&mut self, arc: usize, ticks: i32) -> Result<Trial<'_>, Refusal> {
        accepted(unsafe { ripotyngue_open_trial(&mut self.graph, arc as i32, ticks) })?;
        Ok(Trial { timer: self })
    }

    pub fn time(&mut self) -> Result<(), Refusal> {
        accepted(unsafe {
            ripotyngue_time_ticks(
                &self.graph,
                self.rows.as_ptr(),
                ARCS,
                self.lines.as_mut_ptr(),
                LINES,
                self.arrivals.as_mut_ptr(),
                LINES,
                self.required.as_mut_ptr(),
                LINES,
                self.nodes.as_mut_ptr(),
                NODES,
                self.slacks.as_mut_ptr(),
                NODES,
            )
        })?;
        Ok(())
    }

    /// The slacks of the last timing, each with its node.
    pub fn slacks(&self) -> impl Iterator<Item = (usize, i32)> + '_ {
        let timed = (0..NODES).filter(|&node| self.nodes[node].timed);
        timed.map(|node| (node, self.slacks[node].ticks))
    }

    /// The arcs of the path that has the node's slack, by the tables of the last timing.
    pub fn trace(&self, node: usize) -> Result<Vec<u16>, Refusal> {
        let mut list = vec![0; LIST];
        let answer = accepted(unsafe {
            ripotyngue_trace_ticks(
                node as i32,
                self.lines.as_ptr(),
                LINES,
                self.arrivals.as_ptr(),
                LINES,
                self.required.as_ptr(),
                LINES,
                self.nodes.as_ptr(),
                NODES,
                self.slacks.as_ptr(),
                NODES,
                list.as_mut_ptr(),
                LIST,
            )
        })?;
        list.truncate(answer.value as usize);
        Ok(list)
    }
}

/// An arc's trim for a while: the earlier one is back when it goes.
pub struct Trial<'a> {
    timer: &'a mut Timer,
}

impl Trial<'_> {
    pub fn time(&mut self) -> Result<(), Refusal> {
        self.timer.time()
    }

    pub fn slacks(&self) -> impl Iterator<Item = (usize, i32)> + '_ {
        self.timer.slacks()
    }
}

impl Drop for Trial<'_> {
    fn drop(&mut self) {
        unsafe { ripotyngue_end_trial(&mut self.timer.graph) };
    }
}
