//! Why calls are refused.

use std::fmt;

/// Why a call was refused: a number of numaplan.h. As a text it is the name of the cause, the cause in
/// words, and what to do.
#[derive(Clone, Copy, PartialEq, Eq, Hash)]
pub struct Refused(pub u32);

/// Makes a constant of each cause, and the table of their names and words.
macro_rules! causes {
    ($($number:literal $constant:ident $name:literal $words:literal;)*) => {
        impl Refused {
            $(#[doc = $words] pub const $constant: Refused = Refused($number);)*
        }

        const CAUSES: &[(u32, &str, &str)] = &[$(($number, $name, $words)),*];
    };
}

#[rustfmt::skip]
causes! {
    1 CLOSED "Closed"
        "this keeps nothing, since it was closed; open a new one";
    2 OPEN "Open"
        "this keeps something already; close it first";
    3 NO_MEMORY "NoMemory"
        "out of memory; nothing has changed, so free some and call again";
    4 NO_ROOM "NoRoom"
        "the answer is longer than the room for it; call again with what it needs";
    5 UNKNOWN "Unknown"
        "no answer has this number; numaplan.h has those that there are";
    6 ANSWER_LOST "AnswerLost"
        "the line was served, without memory for its answer; free some and ask again";
    10 COMMANDS_SPENT "CommandsSpent"
        "as many commands as the limits allow were accepted; open a core with a higher max_commands";
    11 UNALIGNED "Unaligned"
        "the start is no multiple of 4096, or start, end or offset lies inside a page of 2 MiB; round to whole pages";
    12 OUT_OF_SPACE "OutOfSpace"
        "the span ends above address 2^47; use lower addresses";
    13 EMPTY_LENGTH "EmptyLength"
        "the length is 0; map at least one byte";
    14 BAD_OFFSET "BadOffset"
        "the offset is 2^35 or more; it is in pages, not in bytes";
    15 OVERLAP "Overlap"
        "a page of the span is mapped already; unmap it first";
    16 HOLE "Hole"
        "a page of the span isn't mapped; map it first, or bind each mapped part by itself";
    17 NO_SUCH_NODE "NoSuchNode"
        "the machine lacks the node; its nodes are numbered from 0";
    18 BAD_WEIGHT "BadWeight"
        "the weight is 0 or above 255; choose one from 1 to 255";
    19 NODES_NOT_ALLOWED "NodesNotAllowed"
        "the policy would have no node, or no node of set_mems has memory; name one that is allowed and has memory";
    20 NOT_SUPPORTED "NotSupported"
        "a page of the span has a policy that takes no home; leave it out";
    21 TOO_MANY_TASKS "TooManyTasks"
        "as many tasks as the limits allow have a policy; set one to default, or open a core with a higher max_tasks";
    22 TOO_MANY_RANGES "TooManyRanges"
        "there would be more ranges than the limits allow; unmap some, or open a core with a higher max_ranges";
    23 NO_POLICY_THERE "NoPolicyThere"
        "by the kernel's rules some page of the span needs a policy of its own; bind one first";
    24 BAD_SPAN "BadSpan"
        "by the kernel's rules the span ends too high; use lower addresses";
    25 NO_NODES "NoNodes"
        "by the kernel's rules set_mems needs a node; name one";
    30 NO_SUCH_WORKER "NoSuchWorker"
        "there are not so many workers; they are numbered from 0";
    31 BUSY "Busy"
        "the worker looks for a frame; let it win one, or exhaust its list, by look and try_frame";
    32 IDLE "Idle"
        "the worker looks for no frame; begin first";
    33 BAD_TRY "BadTry"
        "the current node lacks the frame, or the worker has met it; touch finds a frame by itself";
    34 NOT_OWNED "NotOwned"
        "the frame isn't held here; give it back where it was taken, and once";
    35 BAD_CPU "BadCpu"
        "the machine lacks the node of the CPU; its nodes are numbered from 0";
    36 UNMAPPED "Unmapped"
        "the page isn't mapped, or isn't published yet where a worker looks; map it, or look at its number, which is address / 4096";
    37 NO_RANGE "NoRange"
        "there are not so many ranges; they are counted from 0";
    38 PLACED_TWICE "PlacedTwice"
        "two of the placements are of one page; hand in one for each page";
    41 EXHAUSTED "Exhausted"
        "each frame of each listed node is taken; give one back, and begin anew";
    42 ALL_TAKEN "AllTaken"
        "each frame of each listed node is taken; give one back first";
    50 BAD_NODE_COUNT "BadNodeCount"
        "no node, more than 256, or not one distance from each node to each; give one number of frames and one row of distances for each node";
    51 NO_MEMORY_NODE "NoMemoryNode"
        "no node has memory, or one that the machine lacks; name some of its nodes";
    52 BAD_DISTANCE "BadDistance"
        "a node isn't 10 from itself, or is 10 or less from another";
    53 TOO_MANY_FRAMES "TooManyFrames"
        "a node has more than 4096 frames, or some and no memory, or all have more than 65536; use less";
    54 BAD_LIMITS "BadLimits"
        "max_ranges is above 65536, or max_tasks above 1024; use less";
    55 BAD_WORKERS "BadWorkers"
        "no worker, or more than 16; use 1 to 16";
    56 BAD_RULES "BadRules"
        "no rules have this number; numaplan.h has those that there are";
    57 BAD_ORDERS "BadOrders"
        "no orders have this number; numaplan.h has those that there are";
    58 BAD_FORMAT "BadFormat"
        "no format has this number; numaplan_reports.h has those that there are";
    60 LIST_EMPTY "ListEmpty"
        "nothing stands where a node should; name one, or leave out the comma";
    61 LIST_BAD_DIGIT "ListBadDigit"
        "an item of the list is neither a nor a-b, in decimal of 1 to 4 digits";
    62 LIST_BACKWARDS "ListBackwards"
        "a range of the list falls; turn it round";
    63 LIST_TOO_HIGH "ListTooHigh"
        "a number of the list is above 255; nodes are 0 to 255";
    70 UNKNOWN_MODE "UnknownMode"
        "what stands before the colon is no policy with its flag; write as bind=static:0-1";
    71 BOTH_FLAGS "BothFlags"
        "static and relative exclude each other; choose one";
    72 NODES_FORBIDDEN "NodesForbidden"
        "default and local take no list; leave it out";
    73 FLAGS_FORBIDDEN "FlagsForbidden"
        "local takes no flag, nor does prefer without a list, nor a home; leave it out, or name nodes";
    74 NODES_MISSING "NodesMissing"
        "the policy wants nodes; name them after a colon";
    75 NO_POLICY "NoPolicy"
        "default is no policy; name one";
    76 NO_NODE_ALLOWED "NoNodeAllowed"
        "no node is allowed; name one";
    80 NO_MACHINE "NoMachine"
        "no line of the script makes a machine; begin with one, as machine 2 0-1 8 flat";
    81 BAD_ACCESS "BadAccess"
        "a line of the trace can't be replayed; the last message says which, and why";
    82 MANY_PROCESSES "ManyProcesses"
        "the script is a host's, and the answer is about one process";
    90 GROUP_EXISTS "GroupExists"
        "there is a group of this number; choose another";
    91 NO_SUCH_GROUP "NoSuchGroup"
        "there is no group of this number, or not so many; make it by new_group";
    92 TOO_MANY_GROUPS "TooManyGroups"
        "there are 1024 groups below the root, as many as a host may have";
    93 ROOT_GROUP "RootGroup"
        "the root has no list of its own; make a group below it, and attach processes to that";
    94 POPULATED "Populated"
        "a process is in the group or below it, so its list can't be taken away; give it another list, or attach the process to another group first";
    95 PROCESS_EXISTS "ProcessExists"
        "there is a process of this number; choose another";
    96 NO_SUCH_PROCESS "NoSuchProcess"
        "there is no process of this number, or not so many; make it by new_process or fork";
    97 TOO_MANY_PROCESSES "TooManyProcesses"
        "there are 4096 processes, as many as a host may have; let one exit first";
    98 GROUP_MEMS "GroupMems"
        "the nodes that a process is allowed are those of its group; give the group a list, or attach the process to another";
    100 TOO_MANY_RUNS "TooManyRuns"
        "there would be more than 1048576 runs of pages that lie on one node; state fewer, or move whole spans";
    101 ASTRAY "Astray"
        "a page of the span lies on a node for which the policy doesn't ask; move it first, or bind without strict";
    102 NO_SUCH_TARGET "NoSuchTarget"
        "the machine lacks the node to move to, or it has no memory; its nodes are numbered from 0";
    103 TARGET_NOT_ALLOWED "TargetNotAllowed"
        "the node to move to isn't allowed; name one that is, or allow it by set_mems";
    104 PAGE_UNMAPPED "PageUnmapped"
        "the page that is to move isn't mapped; map it, and state where it lies";
    105 NOT_PLACED "NotPlaced"
        "the page lies nowhere; state where it lies, by place";
    106 NODE_FULL "NodeFull"
        "the node has no room for the page, or for so many; move others away from it, or give it room by set_room";
    107 OCCUPIED "Occupied"
        "the page lies somewhere already; unmap it first";
    108 NO_SUCH_CPU "NoSuchCpu"
        "the machine lacks the node of the task's CPU; its nodes are numbered from 0";
    109 SPAN_UNMAPPED "SpanUnmapped"
        "a page of the span isn't mapped; map it first, or touch each mapped part";
    110 NO_SUCH_POOL "NoSuchPool"
        "the machine lacks the node, and so its pool; its nodes are numbered from 0";
    111 UNSURE "Unsure"
        "the node or the others together have more surplus pages than pages, where Linux takes all the node's memory; let surplus pages end first";
    112 NO_HUGE_PAGES "NoHugePages"
        "too few pages of 2 MiB are free and not reserved, or too few on the nodes that may give them; ask the pools, and resize them";
    113 NODES_FULL "NodesFull"
        "no node of the page's list has room for it; move others away, or give a node room by set_room";
    114 NO_PAGE_FREE "NoPageFree"
        "no node of the page's list gives a page of 2 MiB, and the task gets SIGBUS; resize the pools, or reserve the page when it is mapped";
    115 NO_PLACE "NoPlace"
        "the desk has as many readers as it can; close one, or open it for more";
    116 ENDED "Ended"
        "the reader's desk was closed; the reader answers by what it took last";
    117 NOT_YET "NotYet"
        "the newest version that could be taken is older than that; enter again";
    118 BAD_READERS "BadReaders"
        "there is no reader, or there are more than 64; open it for 1 to 64";
}

impl Refused {
    /// The name of the cause, as "Unaligned"; empty where no answer has this number.
    #[must_use]
    pub fn name(self) -> &'static str {
        self.row().1
    }

    /// The cause in words, and what to do; empty where no answer has this number.
    #[must_use]
    pub fn words(self) -> &'static str {
        self.row().2
    }

    fn row(self) -> &'static (u32, &'static str, &'static str) {
        CAUSES.iter().find(|row| row.0 == self.0).unwrap_or(&(0, "", ""))
    }
}

impl fmt::Display for Refused {
    fn fmt(&self, f: &mut fmt::Formatter<'_>) -> fmt::Result {
        match self.row() {
            (0, ..) => write!(f, "answer {} of the library", self.0),
            (_, name, words) => write!(f, "{name}: {words}"),
        }
    }
}

impl fmt::Debug for Refused {
    fn fmt(&self, f: &mut fmt::Formatter<'_>) -> fmt::Result {
        write!(f, "Refused({self})")
    }
}

impl std::error::Error for Refused {}
