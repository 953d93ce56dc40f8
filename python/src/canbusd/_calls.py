"""Error messages for calls with wrong arguments and for unknown names. The messages list the valid names."""

import difflib
import functools
from collections.abc import Callable, Iterable, Mapping
from typing import TYPE_CHECKING, Any, ClassVar, Optional, TypeVar, cast

F = TypeVar("F", bound=Callable[..., Any])

#: Argument names that other functions and libraries use, and the corresponding names here.
OTHER_NAMES = {
    "bit_rate": "bitrate",
    "cycle": "period",
    "cycle_time": "period",
    "dbc": "database",
    "duration": "seconds",
    "extended": "is_extended_id",
    "filters": "can_filters",
    "interface": "channel",
    "is_extended": "is_extended_id",
    "pace": "pace_ms",
    "rxid": "rx",
    "script": "faults",
    "senders": "sender",
    "timeout": "within",
    "txid": "tx",
    "within": "timeout",
}


def close_at_exit(close: Callable[[], object], kind: Optional[type[BaseException]]) -> None:
    """Closes an object at the end of a `with` block. If an exception ended the block, that exception is raised, and an
    error while closing is ignored."""
    try:
        close()
    except Exception:
        if kind is None:
            raise


def meant(word: str, known: Iterable[str]) -> str:
    """Returns a suggestion such as ` (pace_ms?)` if the word resembles a known name; otherwise the empty string."""
    names = list(known)
    near = [OTHER_NAMES[word]] if OTHER_NAMES.get(word) in names else difflib.get_close_matches(word, names, n=1)
    return f" ({near[0]}?)" if near else ""


def no_such(kind: str, word: str, known: Iterable[str]) -> str:
    """Returns the error for an unknown name, with the existing names: `no option pace (pace_ms?); there are ..`."""
    names = list(known)
    return f"no {kind} {word}{meant(word, names)}; there are {', '.join(names) or 'none'}"


def explained(cure: str = "") -> Callable[[F], F]:
    """Returns a decorator that improves the errors for wrong arguments: they list the valid arguments, followed by
    `cure`."""

    def decorated(function: F) -> F:
        @functools.wraps(function)
        def called(*args: Any, **kwargs: Any) -> Any:
            __tracebackhide__ = True
            try:
                return function(*args, **kwargs)
            except TypeError:
                fault = misfit(function, args, kwargs)
                if not fault:
                    raise
            raise TypeError("; ".join(filter(None, [fault, cure])))

        return cast(F, called)

    return decorated


def misfit(function: Callable[..., Any], args: tuple[Any, ...], kwargs: Mapping[str, Any]) -> str:
    """Returns the reason why a function does not accept these arguments, or the empty string if the function accepts
    them."""
    # This check is slow, so it runs only after a mistake.
    import inspect

    signature = inspect.signature(function)
    parameters = [one.replace(annotation=one.empty) for one in signature.parameters.values()]
    owner, _, own = function.__qualname__.rpartition(".")
    if owner:
        # The first parameter of a method is the object itself.
        del parameters[0]
    name = owner if own == "__init__" else own
    names = [one.name for one in parameters if one.kind in (one.POSITIONAL_OR_KEYWORD, one.KEYWORD_ONLY)]
    takes_any = any(one.kind is one.VAR_KEYWORD for one in parameters)
    unknown = next((word for word in kwargs if word not in names and not takes_any), None)
    if unknown is not None:
        return f"{name} has {no_such('argument', unknown, names)}"
    try:
        signature.bind(*args, **kwargs)
    except TypeError as fault:
        shown = signature.replace(parameters=parameters, return_annotation=signature.empty)
        return f"{name}: {fault}; it is {name}{shown}"
    return ""


class NamesWhatThereIs:
    """A base class whose error for a missing attribute suggests an existing attribute."""

    __slots__ = ()
    #: Attribute names that other classes use, and what to write instead. The key `*` stands for any other name.
    _INSTEAD: ClassVar[Mapping[str, str]] = {}

    if not TYPE_CHECKING:

        def __getattr__(self, name):
            if hasattr(type(self), name):
                # The attribute is a property whose code raised AttributeError. This call raises that error again.
                return object.__getattribute__(self, name)
            public = [one for one in dir(type(self)) if not one.startswith("_")]
            instead = self._INSTEAD.get(name) or meant(name, public) or self._INSTEAD.get("*", "")
            cure = instead if instead.startswith(" (") or not instead else f": {instead}"
            raise AttributeError(f"{type(self).__name__} has no {name}{cure}")
