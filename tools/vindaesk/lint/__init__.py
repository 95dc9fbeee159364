"""Rules over what is laid out, and refused lines: `from vindaesk.lint import Severity, rule`."""
from .registry import Severity, rule

__all__ = ["Severity", "rule"]
