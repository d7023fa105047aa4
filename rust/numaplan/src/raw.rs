//! The declarations of numaplan.h that the wrapper calls.

use std::ffi::c_void;
use std::mem::size_of;

#[repr(C)]
#[derive(Debug)]
pub(crate) struct Handle {
    is_open: bool,
    at: *mut c_void,
}

impl Handle {
    pub(crate) fn closed() -> Handle {
        Handle {
            is_open: false,
            at: std::ptr::null_mut(),
        }
    }
}

#[repr(C)]
pub(crate) struct Limits {
    pub max_ranges: u32,
    pub max_tasks: u32,
    pub max_commands: u32,
}

#[repr(C)]
pub(crate) struct Counts {
    pub pages: [u64; 256],
}

#[repr(C)]
#[derive(Default)]
pub(crate) struct Span {
    pub start: u64,
    pub length: u64,
    pub offset: u64,
}

/// A frame: its node, and its number among the node's frames.
#[repr(C)]
#[derive(Clone, Copy, Debug, Default, PartialEq, Eq, Hash)]
pub struct Frame {
    pub node: u8,
    pub number: u16,
}

#[repr(C)]
pub(crate) struct Nodes {
    pub words: [u64; 4],
}

#[repr(C)]
pub(crate) struct Options {
    pub rules: u32,
    pub orders: u32,
    pub cpus: Nodes,
}

#[repr(C)]
pub(crate) struct StandingPolicy {
    pub mode: u32,
    pub home: u32,
    pub asked: Nodes,
    pub nodes: Nodes,
}

#[repr(C)]
pub(crate) struct AskedReport {
    pub task: u32,
    pub cpu: u32,
    pub rules: u32,
    pub format: u32,
}

#[repr(C)]
pub(crate) struct FreePages {
    pub pages: u64,
    pub node: u8,
}

#[repr(C)]
#[derive(Default)]
pub(crate) struct ToldReport {
    pub answer: usize,
    pub messages: usize,
    pub faulty: u64,
}

#[repr(C)]
pub(crate) struct ToldExplanation {
    pub policy: StandingPolicy,
    pub index: u64,
    pub place: u64,
    pub places: u64,
    pub scope: u32,
    pub rule: u32,
    pub node: u32,
}

#[repr(C)]
pub(crate) struct ToldGroup {
    pub group: u32,
    pub parent: u32,
    pub has_mems: u64,
    pub mems: Nodes,
}

/// Pages in a row that lie on one node: the number of the first, and how many they are.
#[repr(C)]
#[derive(Clone, Copy, Debug, Default, PartialEq, Eq)]
pub struct PageRun {
    pub first: u64,
    pub pages: u64,
    pub node: u8,
}

#[repr(C)]
#[derive(Clone, Copy, Default)]
pub(crate) struct ToldRun {
    pub first: u64,
    pub pages: u64,
    pub cycle: u64,
}

#[repr(C)]
pub(crate) struct ToldArrived {
    pub placed: u64,
    pub exhausted: u64,
    pub nodes: [u64; 256],
}

#[repr(C)]
pub(crate) struct ToldPools {
    pub total: [u64; 256],
    pub free: [u64; 256],
    pub surplus: [u64; 256],
    pub reserved: u64,
}

#[repr(C)]
#[derive(Default)]
pub(crate) struct ToldBound {
    pub moved: u64,
    pub left: u64,
    pub error: u32,
}

#[repr(C)]
#[derive(Clone, Copy, Default)]
pub(crate) struct ToldFlow {
    pub pages: u64,
    pub from: u8,
    pub to: u8,
}

#[repr(C)]
pub(crate) struct ToldMoves {
    pub moved: u64,
    pub left: u64,
    pub from: [u64; 256],
    pub to: [u8; 256],
}

impl ToldMoves {
    pub(crate) fn none() -> ToldMoves {
        ToldMoves { moved: 0, left: 0, from: [0; 256], to: [0; 256] }
    }
}

/// A process: its number, and its group's.
#[repr(C)]
#[derive(Clone, Copy, Debug, Default, PartialEq, Eq, Hash)]
pub struct Process {
    pub process: u32,
    pub group: u32,
}

/// How many pages of a span go to another node: of `pages` pages from number `first` on, `moved` go to
/// node `to`, and would have gone to node `from`.
#[repr(C)]
#[derive(Clone, Copy, Debug, Default, PartialEq, Eq)]
pub struct Move {
    pub first: u64,
    pub pages: u64,
    pub moved: u64,
    pub from: u8,
    pub to: u8,
}

/// Accesses of a trace: `count` by a task, on a CPU of node `cpu`, to the page of a number (address /
/// 4096).
#[repr(C)]
#[derive(Clone, Copy, Debug, Default, PartialEq, Eq)]
pub struct Access {
    pub task: u32,
    pub page: u64,
    pub cpu: u32,
    pub count: u32,
}

#[repr(C)]
#[derive(Clone, Copy, Default)]
pub(crate) struct ToldRoute {
    pub accesses: u64,
    pub faults: u64,
    pub task: u32,
    pub cpu: u32,
    pub node: u32,
}

/// Where a page was placed: by this version, on this frame of this node, at this rank of its list.
#[repr(C)]
#[derive(Clone, Copy, Debug, Default, PartialEq, Eq)]
pub struct Placement {
    pub version: u64,
    pub page: u64,
    pub task: u32,
    pub rank: u32,
    pub frame: u16,
    pub node: u8,
}

const _: () = assert!(size_of::<Handle>() == 16 && size_of::<Limits>() == 12);
const _: () = assert!(size_of::<Frame>() == 4);
const _: () = assert!(size_of::<Placement>() == 32 && size_of::<Counts>() == 2048);
const _: () = assert!(size_of::<Span>() == 24);
const _: () = assert!(size_of::<Nodes>() == 32);
const _: () = assert!(size_of::<Options>() == 40 && size_of::<StandingPolicy>() == 72);
const _: () = assert!(size_of::<AskedReport>() == 16 && size_of::<FreePages>() == 16);
const _: () = assert!(size_of::<Move>() == 32 && size_of::<Access>() == 24);
const _: () = assert!(size_of::<ToldRoute>() == 32);
const _: () = assert!(size_of::<ToldReport>() == 24 && size_of::<ToldExplanation>() == 112);

const _: () = assert!(size_of::<ToldGroup>() == 48 && size_of::<Process>() == 8);
const _: () = assert!(size_of::<PageRun>() == 24 && size_of::<ToldMoves>() == 2320);
const _: () = assert!(size_of::<ToldRun>() == 24 && size_of::<ToldFlow>() == 16);
const _: () = assert!(size_of::<ToldBound>() == 24 && size_of::<ToldArrived>() == 2064);

#[rustfmt::skip]
#[link(name = "numaplan", kind = "static")]
extern "C" {
    pub(crate) fn np_core_open_by(core: &mut Handle, memory: *const u8, memory_length: usize, frames: *const u32, nodes: usize, distances: *const u8, distances_count: usize, limits: &Limits, workers: u32, options: &Options) -> u32;
    pub(crate) fn np_core_close(core: &mut Handle);
    pub(crate) fn np_core_copy(core: &mut Handle, copy: &mut Handle) -> u32;
    pub(crate) fn np_core_versions(core: &mut Handle, accepted: &mut u64, published: &mut u64) -> u32;
    pub(crate) fn np_core_map(core: &mut Handle, start: u64, length: u64, offset: u64) -> u32;
    pub(crate) fn np_core_map_huge(core: &mut Handle, start: u64, length: u64, offset: u64) -> u32;
    pub(crate) fn np_core_unmap(core: &mut Handle, start: u64, length: u64) -> u32;
    pub(crate) fn np_core_mbind(core: &mut Handle, start: u64, length: u64, policy: *const u8, policy_length: usize) -> u32;
    pub(crate) fn np_core_mbind_by(core: &mut Handle, start: u64, length: u64, mode: u32, nodes: &Nodes) -> u32;
    pub(crate) fn np_core_set_task(core: &mut Handle, task: u32, policy: *const u8, policy_length: usize) -> u32;
    pub(crate) fn np_core_set_task_by(core: &mut Handle, task: u32, mode: u32, nodes: &Nodes) -> u32;
    pub(crate) fn np_core_inherit(core: &mut Handle, task: u32, from: u32) -> u32;
    pub(crate) fn np_core_set_home(core: &mut Handle, start: u64, length: u64, node: u32) -> u32;
    pub(crate) fn np_core_home_by(core: &mut Handle, start: u64, length: u64, node: u64, flags: u64) -> u32;
    pub(crate) fn np_core_set_weight(core: &mut Handle, node: u32, weight: u32) -> u32;
    pub(crate) fn np_core_set_mems(core: &mut Handle, nodes: *const u8, nodes_length: usize) -> u32;
    pub(crate) fn np_core_publish(core: &mut Handle) -> u32;
    pub(crate) fn np_core_ranges(core: &mut Handle, count: &mut usize) -> u32;
    pub(crate) fn np_core_range(core: &mut Handle, index: usize, range: &mut Span, policy: *mut u8, room: usize, policy_length: &mut usize) -> u32;
    pub(crate) fn np_core_range_at(core: &mut Handle, address: u64, index: &mut usize) -> u32;
    pub(crate) fn np_core_range_policy(core: &mut Handle, index: usize, policy: &mut StandingPolicy) -> u32;
    pub(crate) fn np_core_task_policy(core: &mut Handle, task: u32, policy: &mut StandingPolicy) -> u32;
    pub(crate) fn np_core_maps(core: &mut Handle, task: u32, placements: *const Placement, count: usize, text: *mut u8, room: usize, length: &mut usize) -> u32;
    pub(crate) fn np_core_touch(core: &mut Handle, worker: u32, task: u32, page: u64, cpu: u32, placed: &mut Placement) -> u32;
    pub(crate) fn np_core_begin(core: &mut Handle, worker: u32, task: u32, page: u64, cpu: u32) -> u32;
    pub(crate) fn np_core_look(core: &mut Handle, worker: u32, word: u32) -> u32;
    pub(crate) fn np_core_try(core: &mut Handle, worker: u32, node: u8, frame: u16, placed: &mut Placement) -> u32;
    pub(crate) fn np_core_give(core: &mut Handle, worker: u32, node: u8, frame: u16) -> u32;
    pub(crate) fn np_core_compile(core: &mut Handle, plan: &mut Handle) -> u32;
    pub(crate) fn np_core_plan(core: &mut Handle, plan: &mut Handle) -> u32;
    pub(crate) fn np_plan_share(plan: &Handle, other: &mut Handle) -> u32;
    pub(crate) fn np_plan_close(plan: &mut Handle);
    pub(crate) fn np_plan_version(plan: &Handle, version: &mut u64) -> u32;
    pub(crate) fn np_plan_choice(plan: &Handle, task: u32, page: u64, cpu: u32, nodes: *mut u8, room: usize, count: &mut usize) -> u32;
    pub(crate) fn np_plan_fill(plan: &Handle, task: u32, cpu: u32, first: u64, nodes: *mut u8, pages: usize) -> u32;
    pub(crate) fn np_plan_fill_marked(plan: &Handle, task: u32, cpu: u32, first: u64, nodes: *mut u8, pages: usize, unmapped: u8) -> u32;
    pub(crate) fn np_plan_nodes(plan: &Handle, task: u32, cpu: u32, pages: *const u64, count: usize, nodes: *mut u8, places: usize, unmapped: u8) -> u32;
    pub(crate) fn np_plan_runs(plan: &Handle, task: u32, runs: *mut ToldRun, room: usize, count: &mut usize) -> u32;
    pub(crate) fn np_plan_counts(plan: &Handle, task: u32, cpu: u32, first: u64, pages: u64, counts: &mut Counts) -> u32;
    pub(crate) fn np_desk_open(desk: &mut Handle, memory: *const u8, memory_length: usize, frames: *const u32, nodes: usize, distances: *const u8, distances_count: usize, limits: &Limits, readers: u32, options: &Options) -> u32;
    pub(crate) fn np_desk_close(desk: &mut Handle);
    pub(crate) fn np_desk_map(desk: &mut Handle, start: u64, length: u64, offset: u64) -> u32;
    pub(crate) fn np_desk_map_huge(desk: &mut Handle, start: u64, length: u64, offset: u64) -> u32;
    pub(crate) fn np_desk_unmap(desk: &mut Handle, start: u64, length: u64) -> u32;
    pub(crate) fn np_desk_mbind(desk: &mut Handle, start: u64, length: u64, policy: *const u8, policy_length: usize) -> u32;
    pub(crate) fn np_desk_mbind_by(desk: &mut Handle, start: u64, length: u64, mode: u32, nodes: &Nodes) -> u32;
    pub(crate) fn np_desk_set_task(desk: &mut Handle, task: u32, policy: *const u8, policy_length: usize) -> u32;
    pub(crate) fn np_desk_set_task_by(desk: &mut Handle, task: u32, mode: u32, nodes: &Nodes) -> u32;
    pub(crate) fn np_desk_inherit(desk: &mut Handle, task: u32, from: u32) -> u32;
    pub(crate) fn np_desk_set_home(desk: &mut Handle, start: u64, length: u64, node: u32) -> u32;
    pub(crate) fn np_desk_home_by(desk: &mut Handle, start: u64, length: u64, node: u64, flags: u64) -> u32;
    pub(crate) fn np_desk_set_weight(desk: &mut Handle, node: u32, weight: u32) -> u32;
    pub(crate) fn np_desk_set_mems(desk: &mut Handle, nodes: *const u8, nodes_length: usize) -> u32;
    pub(crate) fn np_desk_publish(desk: &mut Handle, version: &mut u64) -> u32;
    pub(crate) fn np_desk_versions(desk: &mut Handle, accepted: &mut u64, published: &mut u64) -> u32;
    pub(crate) fn np_desk_reader(desk: &mut Handle, reader: &mut Handle) -> u32;
    pub(crate) fn np_reader_enter(reader: &mut Handle, least: u64, version: &mut u64) -> u32;
    pub(crate) fn np_reader_version(reader: &Handle, version: &mut u64) -> u32;
    pub(crate) fn np_reader_choice(reader: &Handle, task: u32, page: u64, cpu: u32, nodes: *mut u8, room: usize, count: &mut usize) -> u32;
    pub(crate) fn np_reader_fill(reader: &Handle, task: u32, cpu: u32, first: u64, nodes: *mut u8, pages: usize) -> u32;
    pub(crate) fn np_reader_counts(reader: &Handle, task: u32, cpu: u32, first: u64, pages: u64, counts: &mut Counts) -> u32;
    pub(crate) fn np_reader_close(reader: &mut Handle);
    pub(crate) fn np_seat_open(seat: &mut Handle, memory: *const u8, memory_length: usize, frames: *const u32, nodes: usize, distances: *const u8, distances_count: usize) -> u32;
    pub(crate) fn np_seat_split(seat: &mut Handle, other: &mut Handle) -> u32;
    pub(crate) fn np_seat_take(seat: &mut Handle, nodes: *const u8, count: usize, frame: &mut Frame, rank: &mut usize) -> u32;
    pub(crate) fn np_seat_give(seat: &mut Handle, node: u8, number: u16) -> u32;
    pub(crate) fn np_seat_migrate(seat: &mut Handle, node: u8, number: u16, to: u8, frame: &mut Frame) -> u32;
    pub(crate) fn np_seat_join(seat: &mut Handle, other: &mut Handle) -> u32;
    pub(crate) fn np_seat_close(seat: &mut Handle);
    pub(crate) fn np_nodes_read(text: *const u8, length: usize, nodes: &mut Nodes) -> u32;
    pub(crate) fn np_nodes_write(nodes: &Nodes, text: *mut u8, room: usize, length: &mut usize) -> u32;
    pub(crate) fn np_policy_effective(policy: *const u8, policy_length: usize, allowed: *const u8, allowed_length: usize, nodes: &mut Nodes) -> u32;
    pub(crate) fn np_policy_rebind_by(rules: u32, policy: *const u8, policy_length: usize, old: *const u8, old_length: usize, new: *const u8, new_length: usize, nodes: &mut Nodes) -> u32;
    pub(crate) fn np_policy_text(policy: *const u8, policy_length: usize, allowed: *const u8, allowed_length: usize, text: *mut u8, room: usize, length: &mut usize) -> u32;
    pub(crate) fn np_script_run(script: *const u8, length: usize, answers: *mut u8, room: usize, written: &mut usize) -> u32;
    pub(crate) fn np_script_open_by(script: &mut Handle, rules: u32) -> u32;
    pub(crate) fn np_script_close(script: &mut Handle);
    pub(crate) fn np_script_line(script: &mut Handle, line: *const u8, length: usize, needed: &mut usize) -> u32;
    pub(crate) fn np_script_answer(script: &mut Handle, answer: *mut u8, room: usize, length: &mut usize) -> u32;
    pub(crate) fn np_check(script: *const u8, length: usize, asked: &AskedReport, text: *mut u8, room: usize, report: &mut ToldReport) -> u32;
    pub(crate) fn np_predict(script: *const u8, length: usize, lines: *const u8, lines_length: usize, asked: &AskedReport, free_pages: *const FreePages, free_count: usize, text: *mut u8, room: usize, report: &mut ToldReport) -> u32;
    pub(crate) fn np_predict_at(script: *const u8, length: usize, lines: *const u8, lines_length: usize, at: *const u8, at_length: usize, asked: &AskedReport, free_pages: *const FreePages, free_count: usize, text: *mut u8, room: usize, report: &mut ToldReport) -> u32;
    pub(crate) fn np_explain_at(script: *const u8, length: usize, lines: *const u8, lines_length: usize, at: *const u8, at_length: usize, asked: &AskedReport, page: u64, text: *mut u8, room: usize, report: &mut ToldReport) -> u32;
    pub(crate) fn np_moves_at(script: *const u8, length: usize, lines: *const u8, lines_length: usize, at: *const u8, at_length: usize, asked: &AskedReport, free_pages: *const FreePages, free_count: usize, text: *mut u8, room: usize, report: &mut ToldReport) -> u32;
    pub(crate) fn np_moves_touched(script: *const u8, length: usize, lines: *const u8, lines_length: usize, asked: &AskedReport, free_pages: *const FreePages, free_count: usize, text: *mut u8, room: usize, report: &mut ToldReport) -> u32;
    pub(crate) fn np_diff(script: *const u8, length: usize, lines: *const u8, lines_length: usize, asked: &AskedReport, text: *mut u8, room: usize, report: &mut ToldReport) -> u32;
    pub(crate) fn np_explain(script: *const u8, length: usize, lines: *const u8, lines_length: usize, asked: &AskedReport, page: u64, text: *mut u8, room: usize, report: &mut ToldReport) -> u32;
    pub(crate) fn np_replay(script: *const u8, length: usize, lines: *const u8, lines_length: usize, trace: *const u8, trace_length: usize, asked: &AskedReport, text: *mut u8, room: usize, report: &mut ToldReport) -> u32;
    pub(crate) fn np_core_predict(core: &mut Handle, task: u32, cpu: u32, counts: &mut Counts) -> u32;
    pub(crate) fn np_core_fill(core: &mut Handle, task: u32, cpu: u32, free_pages: &mut Counts) -> u32;
    pub(crate) fn np_core_explain(core: &mut Handle, task: u32, page: u64, cpu: u32, explanation: &mut ToldExplanation) -> u32;
    pub(crate) fn np_host_open(host: &mut Handle, memory: *const u8, memory_length: usize, frames: *const u32, nodes: usize, distances: *const u8, distances_count: usize, limits: &Limits, options: &Options) -> u32;
    pub(crate) fn np_host_close(host: &mut Handle);
    pub(crate) fn np_host_copy(host: &mut Handle, copy: &mut Handle) -> u32;
    pub(crate) fn np_host_version(host: &mut Handle, version: &mut u64) -> u32;
    pub(crate) fn np_host_new_group(host: &mut Handle, group: u32, parent: u32) -> u32;
    pub(crate) fn np_host_set_group_mems(host: &mut Handle, group: u32, nodes: *const u8, nodes_length: usize) -> u32;
    pub(crate) fn np_host_unset_group_mems(host: &mut Handle, group: u32) -> u32;
    pub(crate) fn np_host_group_nodes(host: &mut Handle, group: u32, nodes: &mut Nodes) -> u32;
    pub(crate) fn np_host_groups(host: &mut Handle, count: &mut usize) -> u32;
    pub(crate) fn np_host_group(host: &mut Handle, index: usize, group: &mut ToldGroup) -> u32;
    pub(crate) fn np_host_new_process(host: &mut Handle, process: u32, group: u32) -> u32;
    pub(crate) fn np_host_fork(host: &mut Handle, parent: u32, child: u32, from: u32, task: u32) -> u32;
    pub(crate) fn np_host_attach(host: &mut Handle, process: u32, group: u32) -> u32;
    pub(crate) fn np_host_exit(host: &mut Handle, process: u32) -> u32;
    pub(crate) fn np_host_processes(host: &mut Handle, count: &mut usize) -> u32;
    pub(crate) fn np_host_process(host: &mut Handle, index: usize, process: &mut Process) -> u32;
    pub(crate) fn np_host_set_weight(host: &mut Handle, node: u32, weight: u32) -> u32;
    pub(crate) fn np_host_map(host: &mut Handle, process: u32, start: u64, length: u64, offset: u64) -> u32;
    pub(crate) fn np_host_map_huge(host: &mut Handle, process: u32, start: u64, length: u64, offset: u64) -> u32;
    pub(crate) fn np_host_unmap(host: &mut Handle, process: u32, start: u64, length: u64) -> u32;
    pub(crate) fn np_host_mbind(host: &mut Handle, process: u32, start: u64, length: u64, policy: *const u8, policy_length: usize) -> u32;
    pub(crate) fn np_host_mbind_by(host: &mut Handle, process: u32, start: u64, length: u64, mode: u32, nodes: &Nodes) -> u32;
    pub(crate) fn np_host_set_task(host: &mut Handle, process: u32, task: u32, policy: *const u8, policy_length: usize) -> u32;
    pub(crate) fn np_host_set_task_by(host: &mut Handle, process: u32, task: u32, mode: u32, nodes: &Nodes) -> u32;
    pub(crate) fn np_host_inherit(host: &mut Handle, process: u32, task: u32, from: u32) -> u32;
    pub(crate) fn np_host_set_home(host: &mut Handle, process: u32, start: u64, length: u64, node: u32) -> u32;
    pub(crate) fn np_host_home_by(host: &mut Handle, process: u32, start: u64, length: u64, node: u64, flags: u64) -> u32;
    pub(crate) fn np_host_set_room(host: &mut Handle, node: u32, room: u64) -> u32;
    pub(crate) fn np_host_room(host: &mut Handle, node: u32, room: &mut u64) -> u32;
    pub(crate) fn np_host_set_follows(host: &mut Handle, follows: bool) -> u32;
    pub(crate) fn np_host_place(host: &mut Handle, process: u32, start: u64, length: u64, node: u32) -> u32;
    pub(crate) fn np_host_populate(host: &mut Handle, process: u32, start: u64, length: u64, task: u32, cpu: u32, arrived: &mut ToldArrived) -> u32;
    pub(crate) fn np_host_migrate(host: &mut Handle, process: u32, from: *const u8, from_length: usize, to: *const u8, to_length: usize, bound: &mut ToldBound) -> u32;
    pub(crate) fn np_host_move(host: &mut Handle, process: u32, address: u64, node: u32) -> u32;
    pub(crate) fn np_host_mbind_strictly(host: &mut Handle, process: u32, start: u64, length: u64, policy: *const u8, policy_length: usize) -> u32;
    pub(crate) fn np_host_mbind_strictly_by(host: &mut Handle, process: u32, start: u64, length: u64, mode: u32, nodes: &Nodes) -> u32;
    pub(crate) fn np_host_mbind_moving_by(host: &mut Handle, process: u32, start: u64, length: u64, mode: u32, nodes: &Nodes, strict: bool, task: u32, cpu: u32, bound: &mut ToldBound) -> u32;
    pub(crate) fn np_host_mbind_moving(host: &mut Handle, process: u32, start: u64, length: u64, policy: *const u8, policy_length: usize, strict: bool, task: u32, cpu: u32, bound: &mut ToldBound) -> u32;
    pub(crate) fn np_host_pools(host: &mut Handle, pools: &mut ToldPools) -> u32;
    pub(crate) fn np_host_pool(host: &mut Handle, count: u64) -> u32;
    pub(crate) fn np_host_pool_node(host: &mut Handle, node: u32, count: u64) -> u32;
    pub(crate) fn np_host_pool_in(host: &mut Handle, process: u32, count: u64) -> u32;
    pub(crate) fn np_host_pool_node_in(host: &mut Handle, process: u32, node: u32, count: u64) -> u32;
    pub(crate) fn np_host_pool_for(host: &mut Handle, process: u32, count: u64, task: u32, cpu: u32) -> u32;
    pub(crate) fn np_host_map_huge_for(host: &mut Handle, process: u32, start: u64, length: u64, offset: u64, task: u32, reserve: bool) -> u32;
    pub(crate) fn np_host_fault(host: &mut Handle, process: u32, task: u32, address: u64, cpu: u32, node: &mut u32) -> u32;
    pub(crate) fn np_host_node(host: &mut Handle, process: u32, address: u64, node: &mut u32) -> u32;
    pub(crate) fn np_host_nodes(host: &mut Handle, process: u32, numbers: *const u64, count: usize, nodes: *mut u8, places: usize, nowhere: u8) -> u32;
    pub(crate) fn np_host_counts(host: &mut Handle, process: u32, counts: &mut Counts) -> u32;
    pub(crate) fn np_host_runs(host: &mut Handle, process: u32, runs: *mut PageRun, room: usize, count: &mut usize) -> u32;
    pub(crate) fn np_host_moves(host: &mut Handle, process: u32, flows: *mut ToldFlow, room: usize, count: &mut usize, bound: &mut ToldBound) -> u32;
    pub(crate) fn np_host_moves_of_all(host: &mut Handle, flows: *mut ToldFlow, room: usize, count: &mut usize, bound: &mut ToldBound) -> u32;
    pub(crate) fn np_host_choice(host: &mut Handle, process: u32, task: u32, page: u64, cpu: u32, nodes: *mut u8, room: usize, count: &mut usize) -> u32;
    pub(crate) fn np_host_compile(host: &mut Handle, process: u32, plan: &mut Handle) -> u32;
    pub(crate) fn np_host_ranges(host: &mut Handle, process: u32, count: &mut usize) -> u32;
    pub(crate) fn np_host_range(host: &mut Handle, process: u32, index: usize, range: &mut Span, policy: *mut u8, room: usize, policy_length: &mut usize) -> u32;
    pub(crate) fn np_host_task_policy(host: &mut Handle, process: u32, task: u32, policy: &mut StandingPolicy) -> u32;
    pub(crate) fn np_pages_open(pages: &mut Handle, core: &mut Handle) -> u32;
    pub(crate) fn np_pages_close(pages: &mut Handle);
    pub(crate) fn np_pages_copy(pages: &mut Handle, copy: &mut Handle) -> u32;
    pub(crate) fn np_pages_core(pages: &mut Handle, core: &mut Handle) -> u32;
    pub(crate) fn np_pages_version(pages: &mut Handle, version: &mut u64) -> u32;
    pub(crate) fn np_pages_map(pages: &mut Handle, start: u64, length: u64, offset: u64) -> u32;
    pub(crate) fn np_pages_unmap(pages: &mut Handle, start: u64, length: u64) -> u32;
    pub(crate) fn np_pages_mbind(pages: &mut Handle, start: u64, length: u64, policy: *const u8, policy_length: usize) -> u32;
    pub(crate) fn np_pages_mbind_strictly(pages: &mut Handle, start: u64, length: u64, policy: *const u8, policy_length: usize) -> u32;
    pub(crate) fn np_pages_mbind_by(pages: &mut Handle, start: u64, length: u64, mode: u32, nodes: &Nodes) -> u32;
    pub(crate) fn np_pages_mbind_strictly_by(pages: &mut Handle, start: u64, length: u64, mode: u32, nodes: &Nodes) -> u32;
    pub(crate) fn np_pages_mbind_moving_by(pages: &mut Handle, start: u64, length: u64, mode: u32, nodes: &Nodes, strict: bool, task: u32, cpu: u32, bound: &mut ToldBound) -> u32;
    pub(crate) fn np_pages_set_task_by(pages: &mut Handle, task: u32, mode: u32, nodes: &Nodes) -> u32;
    pub(crate) fn np_pages_home_by(pages: &mut Handle, start: u64, length: u64, node: u64, flags: u64) -> u32;
    pub(crate) fn np_pages_set_task(pages: &mut Handle, task: u32, policy: *const u8, policy_length: usize) -> u32;
    pub(crate) fn np_pages_inherit(pages: &mut Handle, task: u32, from: u32) -> u32;
    pub(crate) fn np_pages_set_home(pages: &mut Handle, start: u64, length: u64, node: u32) -> u32;
    pub(crate) fn np_pages_set_weight(pages: &mut Handle, node: u32, weight: u32) -> u32;
    pub(crate) fn np_pages_set_mems(pages: &mut Handle, nodes: *const u8, nodes_length: usize) -> u32;
    pub(crate) fn np_pages_place(pages: &mut Handle, start: u64, length: u64, node: u32) -> u32;
    pub(crate) fn np_pages_populate(pages: &mut Handle, start: u64, length: u64, task: u32, cpu: u32, arrived: &mut ToldArrived) -> u32;
    pub(crate) fn np_pages_pools(pages: &mut Handle, pools: &mut ToldPools) -> u32;
    pub(crate) fn np_pages_pool(pages: &mut Handle, count: u64) -> u32;
    pub(crate) fn np_pages_pool_node(pages: &mut Handle, node: u32, count: u64) -> u32;
    pub(crate) fn np_pages_pool_for(pages: &mut Handle, count: u64, task: u32, cpu: u32) -> u32;
    pub(crate) fn np_pages_map_huge(pages: &mut Handle, start: u64, length: u64, offset: u64, task: u32, reserve: bool) -> u32;
    pub(crate) fn np_pages_fault(pages: &mut Handle, task: u32, address: u64, cpu: u32, node: &mut u32) -> u32;
    pub(crate) fn np_pages_set_room(pages: &mut Handle, node: u32, room: u64) -> u32;
    pub(crate) fn np_pages_room(pages: &mut Handle, node: u32, room: &mut u64) -> u32;
    pub(crate) fn np_pages_node(pages: &mut Handle, address: u64, node: &mut u32) -> u32;
    pub(crate) fn np_pages_nodes(pages: &mut Handle, numbers: *const u64, count: usize, nodes: *mut u8, places: usize, nowhere: u8) -> u32;
    pub(crate) fn np_pages_counts(pages: &mut Handle, counts: &mut Counts) -> u32;
    pub(crate) fn np_pages_runs(pages: &mut Handle, runs: *mut PageRun, room: usize, count: &mut usize) -> u32;
    pub(crate) fn np_pages_move_mems(pages: &mut Handle, nodes: *const u8, nodes_length: usize, moves: &mut ToldMoves) -> u32;
    pub(crate) fn np_pages_migrate(pages: &mut Handle, old: *const u8, old_length: usize, new: *const u8, new_length: usize, moves: &mut ToldMoves) -> u32;
    pub(crate) fn np_pages_mbind_moving(pages: &mut Handle, start: u64, length: u64, policy: *const u8, policy_length: usize, strict: bool, task: u32, cpu: u32, bound: &mut ToldBound) -> u32;
    pub(crate) fn np_pages_move(pages: &mut Handle, address: u64, node: u32) -> u32;
    pub(crate) fn np_core_diff(before: &mut Handle, after: &mut Handle, task: u32, cpu: u32, moves: *mut Move, room: usize, count: &mut usize) -> u32;
    pub(crate) fn np_core_replay(core: &mut Handle, trace: *const Access, length: usize, routes: *mut ToldRoute, room: usize, count: &mut usize) -> u32;
    pub(crate) fn np_core_predict_text(core: &mut Handle, asked: &AskedReport, free_pages: *const FreePages, free_count: usize, text: *mut u8, room: usize, report: &mut ToldReport) -> u32;
    pub(crate) fn np_core_diff_text(before: &mut Handle, after: &mut Handle, asked: &AskedReport, text: *mut u8, room: usize, report: &mut ToldReport) -> u32;
    pub(crate) fn np_core_explain_text(core: &mut Handle, asked: &AskedReport, page: u64, text: *mut u8, room: usize, report: &mut ToldReport) -> u32;
    pub(crate) fn np_core_replay_text(core: &mut Handle, trace: *const u8, trace_length: usize, asked: &AskedReport, text: *mut u8, room: usize, report: &mut ToldReport) -> u32;
    pub(crate) fn np_version() -> u32;
}
