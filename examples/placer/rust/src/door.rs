//! What of include/ripotyngue.h is called here, for Rust.

pub const NODES: usize = 256;
pub const ARCS: usize = 1024;

#[repr(C)]
#[derive(Clone, Copy)]
pub struct Answer {
    pub number: u32,
    pub shown: bool,
    pub ticks: i32,
    pub value: u64,
    pub line: u64,
    pub arc: u32,
    pub cause: u32,
    pub level: u32,
}

#[repr(C)]
#[derive(Clone, Copy, Default)]
pub struct LiveArc {
    pub from: u8,
    pub to: u8,
    pub trim: i32,
    pub sets: u16,
}

#[repr(C)]
#[derive(Clone, Copy, Default)]
struct ArcSlot {
    live: bool,
    arc: LiveArc,
}

#[repr(C)]
#[derive(Clone, Copy, Default)]
struct TimeSlot {
    set: bool,
    ticks: i32,
}

/// A graph's memory. Its bytes are 0 until `ripotyngue_new` is called, and then no one's but the calls'.
#[repr(C)]
pub struct Graph {
    seal: u32,
    on_trial: bool,
    arc: i32,
    earlier: i32,
    taken: u16,
    arcs: [ArcSlot; ARCS],
    starts: [TimeSlot; NODES],
    ends: [TimeSlot; NODES],
}

impl Graph {
    pub fn zeroed() -> Graph {
        Graph {
            seal: 0,
            on_trial: false,
            arc: 0,
            earlier: 0,
            taken: 0,
            arcs: [ArcSlot::default(); ARCS],
            starts: [TimeSlot::default(); NODES],
            ends: [TimeSlot::default(); NODES],
        }
    }
}

#[repr(C)]
#[derive(Clone, Copy, Default)]
pub struct Delay {
    pub marked: bool,
    pub ticks: i32,
}

#[repr(C)]
#[derive(Clone, Copy, Default)]
pub struct Ticks {
    pub ticks: i32,
}

#[repr(C)]
#[derive(Clone, Copy, Default)]
pub struct Line {
    pub node: u16,
    pub tag: u16,
    pub back_arc: u16,
    pub back_line: u16,
    pub fore_arc: u16,
    pub fore_line: u16,
    pub required: bool,
}

#[repr(C)]
#[derive(Clone, Copy, Default)]
pub struct Node {
    pub timed: bool,
    pub line: u16,
}

extern "C" {
    pub fn ripotyngue_new(graph: *mut Graph);
    pub fn ripotyngue_load_arcs(graph: *mut Graph, bytes: *const u8, length: usize) -> Answer;
    pub fn ripotyngue_load_bounds(graph: *mut Graph, bytes: *const u8, length: usize) -> Answer;
    pub fn ripotyngue_load_false_sets(graph: *mut Graph, bytes: *const u8, length: usize) -> Answer;
    pub fn ripotyngue_load_delays(bytes: *const u8, length: usize, rows: *mut Delay, row_count: usize) -> Answer;
    pub fn ripotyngue_set_trim(graph: *mut Graph, arc: i32, ticks: i32) -> Answer;
    pub fn ripotyngue_clear(graph: *mut Graph, set: i32) -> Answer;
    pub fn ripotyngue_open_trial(graph: *mut Graph, arc: i32, ticks: i32) -> Answer;
    pub fn ripotyngue_end_trial(graph: *mut Graph) -> Answer;
    pub fn ripotyngue_taken(graph: *const Graph) -> Answer;
    pub fn ripotyngue_arc(graph: *const Graph, arc: i32, found: *mut LiveArc) -> Answer;
    pub fn ripotyngue_time_ticks(
        graph: *const Graph,
        rows: *const Delay,
        row_count: usize,
        lines: *mut Line,
        line_count: usize,
        arrivals: *mut Ticks,
        arrival_count: usize,
        required: *mut Ticks,
        required_count: usize,
        nodes: *mut Node,
        node_count: usize,
        slacks: *mut Ticks,
        slack_count: usize,
    ) -> Answer;
    pub fn ripotyngue_trace_ticks(
        node: i32,
        lines: *const Line,
        line_count: usize,
        arrivals: *const Ticks,
        arrival_count: usize,
        required: *const Ticks,
        required_count: usize,
        nodes: *const Node,
        node_count: usize,
        slacks: *const Ticks,
        slack_count: usize,
        list: *mut u16,
        list_count: usize,
    ) -> Answer;
}
