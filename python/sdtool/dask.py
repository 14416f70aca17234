"""sdtool.columns over collections of Dask: series of dask.dataframe, and bags.

Each function has the arguments of the one with its name in sdtool.columns, and gives a series or a bag of the answers,
which Dask computes where and when it computes. Index, divisions and name stay. In each partition, values that repeat
are answered once. Workers need sdtool.

    frame = frame.assign(sddl=sdtool.dask.to_sddl(frame.sd))
"""
import functools
import inspect
from typing import Any, Callable

from . import _arguments, columns

__all__ = ["aces", "check", "derive", "digest", "from_sddl", "normalize", "to_sddl"]


def _over(call: Callable[..., Any]) -> Callable[..., Any]:
    @functools.wraps(call)
    def mapped(column: Any, *given: Any, **named: Any) -> Any:
        if not hasattr(column, "map_partitions") or getattr(column, "ndim", 1) != 1:
            raise _arguments.wrong_type("column", column, "a series or a bag of Dask")
        call([], *given, **named)  # wrong arguments are refused before anything is computed
        arguments = inspect.signature(call).bind(column, *given, **named).arguments
        del arguments["column"]
        meta = {"meta": (column.name, object)} if hasattr(column, "divisions") else {}
        return column.map_partitions(functools.partial(call, **arguments), **meta)
    mapped.__module__ = __name__
    return mapped


aces = _over(columns.aces)
check = _over(columns.check)
derive = _over(columns.derive)
digest = _over(columns.digest)
from_sddl = _over(columns.from_sddl)
normalize = _over(columns.normalize)
to_sddl = _over(columns.to_sddl)
