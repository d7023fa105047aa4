"""Buffers for type checkers: whatever memoryview takes. Not proved."""

from __future__ import annotations

from typing import TYPE_CHECKING, Any, TypeVar, Union

if TYPE_CHECKING:
    from typing import Protocol

    from _typeshed import WriteableBuffer

    class _Array(Protocol):
        """An array of numpy's, by what all its versions say of it."""

        @property
        def __array_interface__(self) -> dict[str, Any]: ...

    Buffer = Union[WriteableBuffer, _Array]
    AnyBuffer = TypeVar("AnyBuffer", bound=Buffer)
