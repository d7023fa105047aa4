"""Sets of nodes, and policy words: values, of which nothing is to be closed. Not proved."""

from __future__ import annotations

from ctypes import byref
from ._calls import call, encoded, members, written
from ._judged import Numbers, rules_number, u8s
from ._library import NodeSet


def nodes(text: str) -> list[int]:
    """The nodes of a list, as "0-2,5"."""
    found = NodeSet()
    call("nodes_read", *encoded("text", text), byref(found))
    return members(found)


def nodes_text(numbers: Numbers) -> str:
    """Nodes as a list: [0, 1, 2, 5] is "0-2,5"."""
    found = NodeSet()
    for node in u8s("numbers", numbers):
        found.words[node // 64] |= 1 << node % 64
    return written("nodes_write", byref(found))


def effective(policy: str, allowed: str) -> list[int]:
    """The nodes that a policy has once it is set where these are allowed."""
    found = NodeSet()
    call("policy_effective", *encoded("policy", policy), *encoded("allowed", allowed), byref(found))
    return members(found)


def rebind(policy: str, old: str, new: str, rules: str = "document") -> list[int]:
    """The same once the allowed nodes have changed from `old` to `new`, by the rules of the
    "document" or of the running kernel ("linux")."""
    found = NodeSet()
    call("policy_rebind_by", rules_number(rules), *encoded("policy", policy), *encoded("old", old),
         *encoded("new", new), byref(found))
    return members(found)


def policy_text(policy: str, allowed: str) -> str:
    """A policy as numa_maps shows it once it is set where these nodes are allowed."""
    return written("policy_text", *encoded("policy", policy), *encoded("allowed", allowed))
