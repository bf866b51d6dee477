"""What the calls take. What else is given is refused by an error that names the argument, what it takes and what was given."""

import ctypes
import operator
import reprlib

U32 = 2**32 - 1
SIZE = 2 ** (8 * ctypes.sizeof(ctypes.c_size_t)) - 1
WORD = ctypes.alignment(ctypes.c_void_p)


_PLAIN = (type(None), bool, int, float, complex, str, bytes, bytearray, list, tuple, dict, set, frozenset, range)


def wrong(kind, argument, taken, given):
    """The error that an argument takes something else."""
    return kind(f"{argument} takes {taken}, not {given}")


def shown(given):
    """A short text of what was given, whatever it is."""
    if isinstance(given, int) and int.bit_length(given) > 128:
        return f"an integer of {int.bit_length(given)} bits"
    return reprlib.repr(given) if type(given) in _PLAIN else f"an object of type {type(given).__name__}"


def integer(argument, given, most=SIZE, least=0):
    """An integer within its bounds. A truth value is none."""
    taken = f"an integer from {least} to {most}"
    try:
        number = int(operator.index(None if isinstance(given, bool) else given))
    except TypeError:
        raise wrong(TypeError, argument, taken, shown(given)) from None
    if not least <= number <= most:
        raise wrong(ValueError, argument, taken, shown(number))
    return number


def address(argument, given):
    """The address of a structure, as an integer."""
    number = integer(argument, given, least=1)
    if number % WORD:
        raise wrong(ValueError, argument, f"the address of a structure, a multiple of {WORD}", number)
    return number


def truth(argument, given):
    """True or False."""
    if given is not True and given is not False:
        raise wrong(TypeError, argument, "True or False", shown(given))
    return given


def choice(argument, given, known):
    """A text out of some known ones."""
    taken = f"one of {', '.join(known)}"
    if not isinstance(given, str):
        raise wrong(TypeError, argument, taken, shown(given))
    if given not in known:
        raise wrong(ValueError, argument, taken, shown(given))
    return given


def encoded(argument, given, taken="a name"):
    """The bytes of a name, or of another text."""
    if isinstance(given, bytes):
        return bytes(given)
    if not isinstance(given, str):
        raise wrong(TypeError, argument, f"{taken}, as a text or as bytes", shown(given))
    try:
        return str.encode(given)
    except UnicodeEncodeError:
        raise wrong(ValueError, argument, f"{taken} that UTF-8 can tell", shown(given)) from None


NO_LISTS = [str, bytes, bytearray, memoryview, dict, set, frozenset]


def listed(argument, given, taken):
    """What is given one after another, as a list. A text is none, nor is a Column, or what has no order or has keys."""
    if isinstance(given, tuple(NO_LISTS)):
        raise wrong(TypeError, argument, f"a list of {taken}", shown(given))
    try:
        return list(given)
    except TypeError:
        raise wrong(TypeError, argument, f"a list of {taken}", shown(given)) from None


def each(argument, given, taken, test):
    """What is given one after another, each tested under its own place."""
    return [test(f"{argument}[{place}]", item) for place, item in enumerate(listed(argument, given, taken))]


def instance(argument, given, kind):
    """An object of a class of this package."""
    if not isinstance(given, kind):
        raise wrong(TypeError, argument, f"a {kind.__name__}", shown(given))
    return given
