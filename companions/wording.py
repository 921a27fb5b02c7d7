"""Pieces of what titles say."""


def listed(things, most=8):
    """Some things in backticks, with commas between."""
    shown = [f"`{thing}`" for thing in things]
    return ", ".join(shown[:most]) + (", .." if len(shown) > most else "")


def meant(name):
    """A question behind a title, where a name is near."""
    return f" (did you mean `{name}`?)" if name else ""


def counted(number, thing):
    """A number and a thing, which takes an `s` where it isn't one."""
    return f"{number or 'no'} {thing}" + ("" if number == 1 else "s")


def nth(number):
    """The word for a place in an order, from 0."""
    words = ("first", "second", "third", "fourth", "fifth", "sixth")
    return words[number] if number < len(words) else f"{number + 1}th"


def either(sorts):
    """The sorts that a term may have."""
    return " or ".join(f"`{sort}`" for sort in sorted(sorts))
