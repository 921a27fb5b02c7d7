"""Names that are near a name."""


def distance(one, other, most=3):
    """How many letters have to be put in, taken out, changed or swapped with their neighbour; `most` where more."""
    if abs(len(one) - len(other)) >= most:
        return most
    before, rows = None, list(range(len(other) + 1))
    for row, letter in enumerate(one, 1):
        now = [row]
        for column, wanted in enumerate(other, 1):
            cost = min(rows[column] + 1, now[-1] + 1, rows[column - 1] + (letter != wanted))
            if before and row > 1 and column > 1 and letter == other[column - 2] and one[row - 2] == wanted:
                cost = min(cost, before[column - 2] + 1)
            now.append(cost)
        before, rows = rows, now
    return min(rows[-1], most)


def nearest(name, known):
    """The name that another one was most likely meant to be, or nothing: the same but for capitals, or one or two
    letters away. Names of one or two letters are near no other name but for capitals, and short ones only one letter
    away, unless they begin alike."""
    others = sorted({other for other in known if other != name})
    for other in others:
        if other.lower() == name.lower():
            return other
    allowed = 0 if len(name) < 3 else 1 if len(name) < 5 else 2
    far, best = min(((distance(name.lower(), other.lower()), other) for other in others if len(other) > 2),
                    default=(3, None))
    if best and len(name) == 4 and len(best) > 4 and name[:3].lower() == best[:3].lower():
        allowed = 2  # as `Graf` for `Graph`
    return best if far <= allowed else None


def near_form(name, known):
    """The form of an operator that another one was most likely meant to be: one of the same shape whose word or symbol
    is near."""
    def apart(form):
        return form.replace("__", "\0").strip("\0. []{},")

    def shape(form):
        return form.replace(apart(form), "") if apart(form) else form
    same = {apart(other): other for other in known if shape(other) == shape(name) and apart(other)}
    return same.get(nearest(apart(name), same))
