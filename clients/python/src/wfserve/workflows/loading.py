"""Workflows and activities by the names of their modules, as a command line has them."""

from __future__ import annotations

import argparse
import importlib
import inspect
from typing import Any, Callable, Dict


def named(text: str) -> str:
    """MODULE:WORKFLOW, as it was written."""
    module, _, name = text.partition(":")
    if not module or not name:
        raise argparse.ArgumentTypeError(f"{text} is no MODULE:WORKFLOW")
    return text


def workflow_named(text: str) -> Callable[..., Any]:
    """The workflow of MODULE:WORKFLOW. ValueError where the module has none of this name."""
    module, _, name = text.partition(":")
    found: Dict[str, Callable[..., Any]] = vars(importlib.import_module(module))
    if not getattr(found.get(name), "is_workflow", False):
        known = [it for it in found if inspect.isfunction(found[it]) and hasattr(found[it], "is_workflow")]
        raise ValueError(f"{module} has no workflow {name}; it has {', '.join(known) or 'none'}")
    return found[name]
