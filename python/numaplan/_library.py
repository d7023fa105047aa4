"""libnumaplan.so by ctypes: where it is found, its structs, and the signatures of its functions.
Not proved."""

from __future__ import annotations

import ctypes
import os
from ctypes import POINTER, c_bool, c_char_p, c_size_t, c_uint8, c_uint16, c_uint32, c_uint64
from ctypes import c_void_p

NAME = "libnumaplan.so.0"
UNPROVED = "libnumaplan-unproved.so.0"


class Handle(ctypes.Structure):
    """What a core, its pages, a plan, a seat, a script or a host is kept by."""

    _fields_ = [("is_open", c_bool), ("at", c_void_p)]


class Limits(ctypes.Structure):
    """np_limits."""

    _fields_ = [(name, c_uint32) for name in ("max_ranges", "max_tasks", "max_commands")]


class NodeSet(ctypes.Structure):
    """np_nodes."""

    _fields_ = [("words", c_uint64 * 4)]


class Options(ctypes.Structure):
    """np_options."""

    _fields_ = [("rules", c_uint32), ("orders", c_uint32), ("cpus", NodeSet)]


class StandingPolicy(ctypes.Structure):
    """np_policy."""

    _fields_ = [("mode", c_uint32), ("home", c_uint32), ("asked", NodeSet), ("nodes", NodeSet)]


class PlacedPage(ctypes.Structure):
    """np_placement."""

    _fields_ = [("version", c_uint64), ("page", c_uint64), ("task", c_uint32), ("rank", c_uint32),
                ("frame", c_uint16), ("node", c_uint8)]


class Span(ctypes.Structure):
    """np_range."""

    _fields_ = [(name, c_uint64) for name in ("start", "length", "offset")]


class PagesInRow(ctypes.Structure):
    """np_page_run."""

    _fields_ = [("first", c_uint64), ("pages", c_uint64), ("node", c_uint8)]


class ToldFlow(ctypes.Structure):
    """np_flow."""

    _fields_ = [("pages", c_uint64), ("source", c_uint8), ("target", c_uint8)]


class PagesInTurns(ctypes.Structure):
    """np_plan_run."""

    _fields_ = [(name, c_uint64) for name in ("first", "pages", "cycle")]


class ToldMoves(ctypes.Structure):
    """np_moves."""

    _fields_ = [("moved", c_uint64), ("left", c_uint64), ("went", c_uint64 * 256),
                ("to", c_uint8 * 256)]


class ToldArrived(ctypes.Structure):
    """np_arrived."""

    _fields_ = [("placed", c_uint64), ("exhausted", c_uint64), ("nodes", c_uint64 * 256)]


class ToldPools(ctypes.Structure):
    """np_huge_pools."""

    _fields_ = [*((name, c_uint64 * 256) for name in ("total", "free", "surplus")),
                ("reserved", c_uint64)]


class ToldBound(ctypes.Structure):
    """np_bound."""

    _fields_ = [("moved", c_uint64), ("left", c_uint64), ("error", c_uint32)]


class TakenFrame(ctypes.Structure):
    """np_frame."""

    _fields_ = [("node", c_uint8), ("number", c_uint16)]


class AskedReport(ctypes.Structure):
    """np_question."""

    _fields_ = [(name, c_uint32) for name in ("task", "cpu", "rules", "format")]


class FreePages(ctypes.Structure):
    """np_free."""

    _fields_ = [("pages", c_uint64), ("node", c_uint8)]


class ToldReport(ctypes.Structure):
    """np_report."""

    _fields_ = [("answer", c_size_t), ("messages", c_size_t), ("faulty", c_uint64)]


class ToldExplanation(ctypes.Structure):
    """np_explanation."""

    _fields_ = [("policy", StandingPolicy), ("index", c_uint64), ("place", c_uint64),
                ("places", c_uint64), ("scope", c_uint32), ("rule", c_uint32), ("node", c_uint32)]


class ToldGroup(ctypes.Structure):
    """np_group."""

    _fields_ = [("group", c_uint32), ("parent", c_uint32), ("has_mems", c_uint64),
                ("mems", NodeSet)]


class ToldProcess(ctypes.Structure):
    """np_process."""

    _fields_ = [("process", c_uint32), ("group", c_uint32)]


class SpanMove(ctypes.Structure):
    """np_move."""

    _fields_ = [("first", c_uint64), ("pages", c_uint64), ("moved", c_uint64), ("from", c_uint8),
                ("to", c_uint8)]


class Access(ctypes.Structure):
    """np_access."""

    _fields_ = [("task", c_uint32), ("page", c_uint64), ("cpu", c_uint32), ("count", c_uint32)]


class ToldRoute(ctypes.Structure):
    """np_route."""

    _fields_ = [("accesses", c_uint64), ("faults", c_uint64), ("task", c_uint32), ("cpu", c_uint32),
                ("node", c_uint32)]


_HANDLE, _TEXT, _U32, _U64 = POINTER(Handle), c_char_p, c_uint32, c_uint64
_ROOM = [POINTER(c_uint8), c_size_t, POINTER(c_size_t)]
_ASKED, _TOLD = POINTER(AskedReport), [c_void_p, c_size_t, POINTER(ToldReport)]
_THREE_TEXTS = [_TEXT, c_size_t] * 3
_OPENED_BY = [_TEXT, c_size_t, POINTER(_U32), c_size_t, _TEXT, c_size_t, POINTER(Limits), _U32]
_SIGNATURES = {
    "core_open_by": [_HANDLE, *_OPENED_BY, POINTER(Options)],
    "core_copy": [_HANDLE, _HANDLE],
    "core_versions": [_HANDLE, POINTER(_U64), POINTER(_U64)],
    "core_ranges": [_HANDLE, POINTER(c_size_t)],
    "core_range": [_HANDLE, c_size_t, POINTER(Span), *_ROOM],
    "core_range_at": [_HANDLE, _U64, POINTER(c_size_t)],
    "core_range_policy": [_HANDLE, c_size_t, POINTER(StandingPolicy)],
    "core_task_policy": [_HANDLE, _U32, POINTER(StandingPolicy)],
    "core_maps": [_HANDLE, _U32, POINTER(PlacedPage), c_size_t, *_ROOM],
    "core_map": [_HANDLE, _U64, _U64, _U64],
    "core_map_huge": [_HANDLE, _U64, _U64, _U64],
    "core_unmap": [_HANDLE, _U64, _U64],
    "core_mbind": [_HANDLE, _U64, _U64, _TEXT, c_size_t],
    "core_mbind_by": [_HANDLE, _U64, _U64, _U32, POINTER(NodeSet)],
    "core_set_task": [_HANDLE, _U32, _TEXT, c_size_t],
    "core_set_task_by": [_HANDLE, _U32, _U32, POINTER(NodeSet)],
    "core_inherit": [_HANDLE, _U32, _U32],
    "core_set_home": [_HANDLE, _U64, _U64, _U32],
    "core_home_by": [_HANDLE, _U64, _U64, _U64, _U64],
    "core_set_weight": [_HANDLE, _U32, _U32],
    "core_set_mems": [_HANDLE, _TEXT, c_size_t],
    "core_publish": [_HANDLE],
    "core_touch": [_HANDLE, _U32, _U32, _U64, _U32, POINTER(PlacedPage)],
    "core_begin": [_HANDLE, _U32, _U32, _U64, _U32],
    "core_look": [_HANDLE, _U32, _U32],
    "core_try": [_HANDLE, _U32, c_uint8, c_uint16, POINTER(PlacedPage)],
    "core_give": [_HANDLE, _U32, c_uint8, c_uint16],
    "core_compile": [_HANDLE, _HANDLE],
    "core_plan": [_HANDLE, _HANDLE],
    "plan_share": [_HANDLE, _HANDLE],
    "plan_version": [_HANDLE, POINTER(_U64)],
    "plan_choice": [_HANDLE, _U32, _U64, _U32, *_ROOM],
    "plan_fill": [_HANDLE, _U32, _U32, _U64, POINTER(c_uint8), c_size_t],
    "plan_fill_marked": [_HANDLE, _U32, _U32, _U64, POINTER(c_uint8), c_size_t, c_uint8],
    "plan_nodes": [_HANDLE, _U32, _U32, c_void_p, c_size_t, POINTER(c_uint8), c_size_t, c_uint8],
    "plan_runs": [_HANDLE, _U32, POINTER(PagesInTurns), c_size_t, POINTER(c_size_t)],
    "plan_counts": [_HANDLE, _U32, _U32, _U64, _U64, POINTER(_U64 * 256)],
    "desk_open": [_HANDLE, *_OPENED_BY, POINTER(Options)],
    "desk_map": [_HANDLE, _U64, _U64, _U64],
    "desk_map_huge": [_HANDLE, _U64, _U64, _U64],
    "desk_unmap": [_HANDLE, _U64, _U64],
    "desk_mbind": [_HANDLE, _U64, _U64, _TEXT, c_size_t],
    "desk_mbind_by": [_HANDLE, _U64, _U64, _U32, POINTER(NodeSet)],
    "desk_set_task": [_HANDLE, _U32, _TEXT, c_size_t],
    "desk_set_task_by": [_HANDLE, _U32, _U32, POINTER(NodeSet)],
    "desk_inherit": [_HANDLE, _U32, _U32],
    "desk_set_home": [_HANDLE, _U64, _U64, _U32],
    "desk_home_by": [_HANDLE, _U64, _U64, _U64, _U64],
    "desk_set_weight": [_HANDLE, _U32, _U32],
    "desk_set_mems": [_HANDLE, _TEXT, c_size_t],
    "desk_publish": [_HANDLE, POINTER(_U64)],
    "desk_versions": [_HANDLE, POINTER(_U64), POINTER(_U64)],
    "desk_reader": [_HANDLE, _HANDLE],
    "reader_enter": [_HANDLE, _U64, POINTER(_U64)],
    "reader_version": [_HANDLE, POINTER(_U64)],
    "reader_choice": [_HANDLE, _U32, _U64, _U32, *_ROOM],
    "reader_fill": [_HANDLE, _U32, _U32, _U64, POINTER(c_uint8), c_size_t],
    "reader_counts": [_HANDLE, _U32, _U32, _U64, _U64, POINTER(_U64 * 256)],
    "seat_open": [_HANDLE, _TEXT, c_size_t, POINTER(_U32), c_size_t, _TEXT, c_size_t],
    "seat_split": [_HANDLE, _HANDLE],
    "seat_take": [_HANDLE, _TEXT, c_size_t, POINTER(TakenFrame), POINTER(c_size_t)],
    "seat_give": [_HANDLE, c_uint8, c_uint16],
    "seat_join": [_HANDLE, _HANDLE],
    "nodes_read": [_TEXT, c_size_t, POINTER(NodeSet)],
    "nodes_write": [POINTER(NodeSet), *_ROOM],
    "policy_effective": [_TEXT, c_size_t, _TEXT, c_size_t, POINTER(NodeSet)],
    "policy_rebind_by": [_U32, _TEXT, c_size_t, _TEXT, c_size_t, _TEXT, c_size_t,
                         POINTER(NodeSet)],
    "policy_text": [_TEXT, c_size_t, _TEXT, c_size_t, *_ROOM],
    "script_run": [_TEXT, c_size_t, *_ROOM],
    "script_open_by": [_HANDLE, _U32],
    "answer_errno": [_U32, POINTER(_U32)],
    "check": [_TEXT, c_size_t, _ASKED, *_TOLD],
    "predict": [_TEXT, c_size_t, _TEXT, c_size_t, _ASKED, c_void_p, c_size_t, *_TOLD],
    "predict_at": [*_THREE_TEXTS, _ASKED, c_void_p, c_size_t, *_TOLD],
    "explain_at": [*_THREE_TEXTS, _ASKED, _U64, *_TOLD],
    "moves_at": [*_THREE_TEXTS, _ASKED, c_void_p, c_size_t, *_TOLD],
    "moves_touched": [_TEXT, c_size_t, _TEXT, c_size_t, _ASKED, c_void_p, c_size_t, *_TOLD],
    "diff": [_TEXT, c_size_t, _TEXT, c_size_t, _ASKED, *_TOLD],
    "explain": [_TEXT, c_size_t, _TEXT, c_size_t, _ASKED, _U64, *_TOLD],
    "replay": [*_THREE_TEXTS, _ASKED, *_TOLD],
    "core_predict": [_HANDLE, _U32, _U32, POINTER(_U64 * 256)],
    "core_fill": [_HANDLE, _U32, _U32, POINTER(_U64 * 256)],
    "core_explain": [_HANDLE, _U32, _U64, _U32, POINTER(ToldExplanation)],
    "host_open": [_HANDLE, *_OPENED_BY[:-1], POINTER(Options)],
    "host_copy": [_HANDLE, _HANDLE],
    "host_version": [_HANDLE, POINTER(_U64)],
    "host_new_group": [_HANDLE, _U32, _U32],
    "host_set_group_mems": [_HANDLE, _U32, _TEXT, c_size_t],
    "host_unset_group_mems": [_HANDLE, _U32],
    "host_group_nodes": [_HANDLE, _U32, POINTER(NodeSet)],
    "host_groups": [_HANDLE, POINTER(c_size_t)],
    "host_group": [_HANDLE, c_size_t, POINTER(ToldGroup)],
    "host_new_process": [_HANDLE, _U32, _U32],
    "host_fork": [_HANDLE, _U32, _U32, _U32, _U32],
    "host_attach": [_HANDLE, _U32, _U32],
    "host_exit": [_HANDLE, _U32],
    "host_processes": [_HANDLE, POINTER(c_size_t)],
    "host_process": [_HANDLE, c_size_t, POINTER(ToldProcess)],
    "host_set_weight": [_HANDLE, _U32, _U32],
    "host_map": [_HANDLE, _U32, _U64, _U64, _U64],
    "host_map_huge": [_HANDLE, _U32, _U64, _U64, _U64],
    "host_unmap": [_HANDLE, _U32, _U64, _U64],
    "host_mbind": [_HANDLE, _U32, _U64, _U64, _TEXT, c_size_t],
    "host_mbind_by": [_HANDLE, _U32, _U64, _U64, _U32, POINTER(NodeSet)],
    "host_set_task": [_HANDLE, _U32, _U32, _TEXT, c_size_t],
    "host_set_task_by": [_HANDLE, _U32, _U32, _U32, POINTER(NodeSet)],
    "host_inherit": [_HANDLE, _U32, _U32, _U32],
    "host_set_home": [_HANDLE, _U32, _U64, _U64, _U32],
    "host_home_by": [_HANDLE, _U32, _U64, _U64, _U64, _U64],
    "host_set_room": [_HANDLE, _U32, _U64],
    "host_room": [_HANDLE, _U32, POINTER(_U64)],
    "host_set_follows": [_HANDLE, c_bool],
    "host_place": [_HANDLE, _U32, _U64, _U64, _U32],
    "host_populate": [_HANDLE, _U32, _U64, _U64, _U32, _U32, POINTER(ToldArrived)],
    "host_migrate": [_HANDLE, _U32, _TEXT, c_size_t, _TEXT, c_size_t, POINTER(ToldBound)],
    "host_move": [_HANDLE, _U32, _U64, _U32],
    "host_mbind_strictly": [_HANDLE, _U32, _U64, _U64, _TEXT, c_size_t],
    "host_mbind_strictly_by": [_HANDLE, _U32, _U64, _U64, _U32, POINTER(NodeSet)],
    "host_mbind_moving": [_HANDLE, _U32, _U64, _U64, _TEXT, c_size_t, c_bool, _U32, _U32,
                          POINTER(ToldBound)],
    "host_mbind_moving_by": [_HANDLE, _U32, _U64, _U64, _U32, POINTER(NodeSet), c_bool, _U32, _U32,
                             POINTER(ToldBound)],
    "host_pools": [_HANDLE, POINTER(ToldPools)],
    "host_pool": [_HANDLE, _U64],
    "host_pool_node": [_HANDLE, _U32, _U64],
    "host_pool_in": [_HANDLE, _U32, _U64],
    "host_pool_node_in": [_HANDLE, _U32, _U32, _U64],
    "host_pool_for": [_HANDLE, _U32, _U64, _U32, _U32],
    "host_map_huge_for": [_HANDLE, _U32, _U64, _U64, _U64, _U32, c_bool],
    "host_fault": [_HANDLE, _U32, _U32, _U64, _U32, POINTER(_U32)],
    "host_node": [_HANDLE, _U32, _U64, POINTER(_U32)],
    "host_nodes": [_HANDLE, _U32, c_void_p, c_size_t, POINTER(c_uint8), c_size_t, c_uint8],
    "host_counts": [_HANDLE, _U32, POINTER(_U64 * 256)],
    "host_runs": [_HANDLE, _U32, POINTER(PagesInRow), c_size_t, POINTER(c_size_t)],
    "host_moves": [_HANDLE, _U32, POINTER(ToldFlow), c_size_t, POINTER(c_size_t),
                   POINTER(ToldBound)],
    "host_moves_of_all": [_HANDLE, POINTER(ToldFlow), c_size_t, POINTER(c_size_t),
                          POINTER(ToldBound)],
    "host_choice": [_HANDLE, _U32, _U32, _U64, _U32, *_ROOM],
    "host_compile": [_HANDLE, _U32, _HANDLE],
    "host_ranges": [_HANDLE, _U32, POINTER(c_size_t)],
    "host_range": [_HANDLE, _U32, c_size_t, POINTER(Span), *_ROOM],
    "host_task_policy": [_HANDLE, _U32, _U32, POINTER(StandingPolicy)],
    "pages_open": [_HANDLE, _HANDLE],
    "pages_copy": [_HANDLE, _HANDLE],
    "pages_core": [_HANDLE, _HANDLE],
    "pages_version": [_HANDLE, POINTER(_U64)],
    "pages_map": [_HANDLE, _U64, _U64, _U64],
    "pages_unmap": [_HANDLE, _U64, _U64],
    "pages_mbind": [_HANDLE, _U64, _U64, _TEXT, c_size_t],
    "pages_mbind_by": [_HANDLE, _U64, _U64, _U32, POINTER(NodeSet)],
    "pages_mbind_strictly": [_HANDLE, _U64, _U64, _TEXT, c_size_t],
    "pages_mbind_strictly_by": [_HANDLE, _U64, _U64, _U32, POINTER(NodeSet)],
    "pages_set_task": [_HANDLE, _U32, _TEXT, c_size_t],
    "pages_set_task_by": [_HANDLE, _U32, _U32, POINTER(NodeSet)],
    "pages_inherit": [_HANDLE, _U32, _U32],
    "pages_set_home": [_HANDLE, _U64, _U64, _U32],
    "pages_home_by": [_HANDLE, _U64, _U64, _U64, _U64],
    "pages_set_weight": [_HANDLE, _U32, _U32],
    "pages_set_mems": [_HANDLE, _TEXT, c_size_t],
    "pages_place": [_HANDLE, _U64, _U64, _U32],
    "pages_populate": [_HANDLE, _U64, _U64, _U32, _U32, POINTER(ToldArrived)],
    "pages_pools": [_HANDLE, POINTER(ToldPools)],
    "pages_pool": [_HANDLE, _U64],
    "pages_pool_node": [_HANDLE, _U32, _U64],
    "pages_pool_for": [_HANDLE, _U64, _U32, _U32],
    "pages_map_huge": [_HANDLE, _U64, _U64, _U64, _U32, c_bool],
    "pages_fault": [_HANDLE, _U32, _U64, _U32, POINTER(_U32)],
    "pages_set_room": [_HANDLE, _U32, _U64],
    "pages_room": [_HANDLE, _U32, POINTER(_U64)],
    "pages_node": [_HANDLE, _U64, POINTER(_U32)],
    "pages_nodes": [_HANDLE, c_void_p, c_size_t, POINTER(c_uint8), c_size_t, c_uint8],
    "pages_counts": [_HANDLE, POINTER(_U64 * 256)],
    "pages_runs": [_HANDLE, POINTER(PagesInRow), c_size_t, POINTER(c_size_t)],
    "pages_move_mems": [_HANDLE, _TEXT, c_size_t, POINTER(ToldMoves)],
    "pages_migrate": [_HANDLE, _TEXT, c_size_t, _TEXT, c_size_t, POINTER(ToldMoves)],
    "pages_move": [_HANDLE, _U64, _U32],
    "pages_mbind_moving": [_HANDLE, _U64, _U64, _TEXT, c_size_t, c_bool, _U32, _U32,
                           POINTER(ToldBound)],
    "pages_mbind_moving_by": [_HANDLE, _U64, _U64, _U32, POINTER(NodeSet), c_bool, _U32, _U32,
                              POINTER(ToldBound)],
    "core_diff": [_HANDLE, _HANDLE, _U32, _U32, POINTER(SpanMove), c_size_t, POINTER(c_size_t)],
    "core_replay": [_HANDLE, POINTER(Access), c_size_t, POINTER(ToldRoute), c_size_t,
                    POINTER(c_size_t)],
    "core_predict_text": [_HANDLE, _ASKED, c_void_p, c_size_t, *_TOLD],
    "core_diff_text": [_HANDLE, _HANDLE, _ASKED, *_TOLD],
    "core_explain_text": [_HANDLE, _ASKED, _U64, *_TOLD],
    "core_replay_text": [_HANDLE, _TEXT, c_size_t, _ASKED, *_TOLD],
    "version": [],
}


def _find() -> ctypes.CDLL:
    """The library that NUMAPLAN_LIBRARY names; else that of this module's folder, of the PREFIX
    that it is installed in, where need be one without a proof, or of the system."""
    here = os.path.dirname(os.path.abspath(__file__))
    folders = [here, os.path.join(here, "..", "..", "..", "lib")]
    beside = [os.path.join(folder, name) for name in (NAME, UNPROVED) for folder in folders]
    found = [path for path in beside if os.path.exists(path)]
    path = os.environ.get("NUMAPLAN_LIBRARY") or (found + [NAME])[0]
    try:
        return ctypes.CDLL(path)
    except OSError as fault:
        what = (f"'./numaplan library PREFIX' makes {NAME} in PREFIX/lib, and NUMAPLAN_LIBRARY names"
                " it where it is elsewhere")
        if "CPU ISA level" in str(fault):
            what = "it needs x86-64-v2, as processors since 2009 have it (SSE4.2 and POPCNT)"
        raise ImportError(f"{fault}; {what}") from fault


def _load() -> ctypes.CDLL:
    """The library, with the signature of each function."""
    library = _find()
    for name, types in _SIGNATURES.items():
        function = getattr(library, "np_" + name, None)
        if function is None:
            raise ImportError(f"{library._name} lacks np_{name}: it is of another version")
        function.argtypes, function.restype = types, c_uint32
    for name in ("core_close", "desk_close", "host_close", "pages_close", "plan_close",
                 "reader_close", "script_close", "seat_close"):
        function = getattr(library, "np_" + name)
        function.argtypes, function.restype = [_HANDLE], None
    return library


LIBRARY = _load()
