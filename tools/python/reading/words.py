from dataclasses import make_dataclass
from functools import cache, partial, wraps

# What the records and the kinds of data of the definitions are in Python.
class NoCase(Exception):
    """No case of a definition is met: this is a mistake of the translator."""

def record(name, *fields):
    """A record: a class whose values hold their fields and are equal if these are."""
    return make_dataclass(name, fields, slots=True)

def data(name, **constructors):
    """A kind of data: a class for each constructor, and one value for a constructor that has no arguments."""
    kind = type(name, (), {})
    for constructor, fields in constructors.items():
        made = make_dataclass(constructor.rstrip("_"), fields.split(), slots=True, eq=bool(fields))
        setattr(kind, constructor, made if fields else made())
    return kind

def replace(whole, **new):
    """A record with other values in some of its fields."""
    kind = whole.__class__
    return kind(*[new[it] if it in new else getattr(whole, it) for it in kind.__slots__])

once = cache  # a definition without arguments: its value is made once

def kept(function):
    """What a text says, if it says something: it is computed once for each text."""
    found = {}

    @wraps(function)
    def of_text(text):
        key = tuple(text)
        if key not in found:
            if len(found) > 100_000:
                found.clear()
            found[key] = function(text)
        return found[key]

    return of_text

# An option is None or Some(value); a result is Ok(value) or Err(fault).
Some = make_dataclass("Some", ["value"], slots=True)
Ok = make_dataclass("Ok", ["value"], slots=True)
Err = make_dataclass("Err", ["fault"], slots=True)

@cache
def codes(text):
    """The bytes of a text. Texts are lists of bytes everywhere."""
    return list(text.encode())

# ---- the words of the standard library

def monus(a, b): return a - b if a > b else 0  # subtraction of naturals ends at 0
def quotient(a, b): return a // b if b else 0  # to divide by 0 gives 0
def remainder(a, b): return a % b if b else a  # and leaves the number
def max_(a, b): return a if a > b else b  # the greater of two
def nat_eq(a, b): return a == b  # whether two numbers are the same
def bit_not(width, a): return ((1 << width) - 1) ^ a  # of a number of that many bits
def cast_signed(width, n): return n - (1 << width) if n >> (width - 1) else n  # a word that is read as one with a sign
def cast_unsigned(width, n): return n % (1 << width)  # and back
def unsigned_abs(n): return abs(n)  # the number without its sign
def neg(n): return -n  # the number with the other sign
def suc(n): return n + 1  # the number after
def take(n, items): return items[:n]  # the first n items
def drop(n, items): return items[n:]  # the items after these
def find(test, items): return next((Some(it) for it in items if test(it)), None)  # the first item that meets a test
def flat_map(f, items): return [it for each in items for it in f(each)]  # what f gives of each item, in a row
def filter_map(f, items): return [it.value for it in map(f, items) if it is not None]  # what f gives, if it does
def replicate(n, item): return [item] * n  # an item n times
def range_with_len(start, n): return list(range(start, start + n))  # n numbers from that one on
def slice_get(items, place): return Some(items[place]) if place < len(items) else None  # the item at a place from 0
def slice_index(items, place): return items[place] if place < len(items) else 0  # that number, or 0
def slice_index_or(items, n, other): return items[n] if n < len(items) else other  # item n from 0, or another one
def slice_set(items, n, it): return [*items[:n], it, *items[n + 1:]] if n < len(items) else items  # item n is another
def position_or_len(test, items): return next((n for n, it in enumerate(items) if test(it)), len(items))  # its place
def position_from(test, start, items):
    """The number of the first item that meets a test, if one does, where the first of all has the number `start`."""
    return next((Some(start + n) for n, it in enumerate(items) if test(it)), None)
def before_first(test, items): return items[:position_or_len(test, items)]  # the items before one that meets a test
def pointwise(same, a, b): return len(a) == len(b) and all(same(x, y) for x, y in zip(a, b))  # whether two are the same
def bytes_eq(a, b): return a == b  # whether two texts are the same
def splits(items): return [(items[:n], items[n + 1:]) for n in range(len(items))]  # what is before and after each item
def pairs(items): return [(one, two) for n, one in enumerate(items) for two in items[n + 1:]]  # each with each after it
def option_map(f, option): return None if option is None else Some(f(option.value))  # f of what is there, if it is
def option_and_then(f, option): return None if option is None else f(option.value)  # f may give none too
def option_map_or(f, option, other): return other if option is None else f(option.value)  # f of it, or another value
def option_or(option, other): return other if option is None else option  # the first that is there
def option_to_list(option): return [] if option is None else [option.value]  # the list of what is there, or none
def cons_option(option, items): return items if option is None else [option.value, *items]  # before the items
def unwrap_or(option, otherwise): return otherwise if option is None else option.value  # what is there, or another
def is_some(option): return option is not None  # whether something is there
def is_none(option): return option is None  # whether nothing is
def nat_cmp(a, b): return (a > b) - (a < b)  # an order is -1, 0 or 1
def slice_cmp(order, a, b): return (a > b) - (a < b)  # that of the first items that differ; a beginning comes first
def finmap_find(order, key, pairs): return next((Some(value) for it, value in pairs if it == key), None)  # in a map
def finmap_where_key(order, test, pairs): return [it for it in pairs if test(it[0])]  # a part of a map
def digits_value(radix, digits): return int(bytes(digits).decode(), radix)  # the number that digits are

def fold(f, start, items):
    """What f makes of the items, one after another."""
    for it in items:
        start = f(start, it)
    return start

def slice_split(test, items):
    """The parts of a list between the items that meet a test."""
    found = [[]]
    for it in items:
        if test(it):
            found.append([])
        else:
            found[-1].append(it)
    return found

def finmap_put(order, key, value, pairs):
    """A map, which is a list of pairs in the order of their keys, with another value at a key."""
    return sorted([it for it in pairs if it[0] != key] + [(key, value)], key=lambda it: it[0])
