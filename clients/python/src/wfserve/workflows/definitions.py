"""What makes a function a workflow or an activity, and what names it in a history."""

from __future__ import annotations

import inspect
from typing import Any, Callable, Dict, Iterable, Optional, TypeVar, Union, overload

Function = TypeVar("Function", bound=Callable[..., Any])
Named = Union[str, Callable[..., Any]]


@overload
def workflow(function: Function) -> Function: ...


@overload
def workflow(*, name: Optional[str] = None) -> Callable[[Function], Function]: ...


def workflow(function: Optional[Function] = None, *, name: Optional[str] = None) -> Any:
    """Marks an `async def` as a workflow, as `@workflow` or `@workflow(name="Order")`.

    Its type is this name, or else the function's. Its first argument is the context.
    """

    def marked(it: Function) -> Function:
        if not inspect.iscoroutinefunction(it):
            raise TypeError(f"the workflow {it.__name__} is no 'async def'")
        it.is_workflow = True  # type: ignore[attr-defined]
        return with_type(it, name)

    return marked if function is None else marked(function)


@overload
def activity(function: Function) -> Function: ...


@overload
def activity(*, name: Optional[str] = None) -> Callable[[Function], Function]: ...


def activity(function: Optional[Function] = None, *, name: Optional[str] = None) -> Any:
    """Names an activity, as `@activity(name="Charge")`. A function is one of its own name without it.

    A plain function may block: it has a thread. An `async def` runs on the worker's event loop, and must not.
    """

    def marked(it: Function) -> Function:
        refuse_generator(it)
        return with_type(it, name)

    return marked if function is None else marked(function)


def with_type(function: Function, name: Optional[str]) -> Function:
    """A function with the type that it has in histories."""
    if name is not None and not name:
        raise ValueError(f"the name of {function.__name__} is empty")
    function.type_name = name or function.__name__  # type: ignore[attr-defined]
    return function


def type_of(named: Named) -> str:
    """The type of a workflow or an activity: the name that it was given, its function's name, or the text itself."""
    return named if isinstance(named, str) else str(getattr(named, "type_name", named.__name__))


def workflows_by_type(functions: Iterable[Callable[..., Any]]) -> Dict[str, Callable[..., Any]]:
    """Workflows by their types. TypeError for a function that is not marked as one."""
    found = by_type("workflows", functions)
    for function in found.values():
        if not getattr(function, "is_workflow", False):
            raise TypeError(f"{function.__name__} is not marked by @workflow")
    return found


def activities_by_type(functions: Iterable[Callable[..., Any]]) -> Dict[str, Callable[..., Any]]:
    """Activities by their types. TypeError for an `async def` that yields."""
    found = by_type("activities", functions)
    for function in found.values():
        refuse_generator(function)
    return found


def refuse_generator(function: Callable[..., Any]) -> None:
    """TypeError for what gives many values: an activity gives one."""
    if inspect.isasyncgenfunction(function):
        raise TypeError(f"the activity {type_of(function)} is an 'async def' that yields; an activity gives one value")


def by_type(kind: str, functions: Iterable[Callable[..., Any]]) -> Dict[str, Callable[..., Any]]:
    """Functions by their types. Two of one type would leave one of them without work."""
    found: Dict[str, Callable[..., Any]] = {}
    for function in functions:
        name = type_of(function)
        if found.setdefault(name, function) is not function:
            raise ValueError(f"two {kind} are named {name}")
    return found
