"""The texts of the codes, which stand in docs/TRAITS.md and nowhere else."""
import functools
import re

from .program import TOP

GUIDE = TOP / "docs/TRAITS.md"
# The heading behind which the guide has the codes of scripts.
OF_SCRIPTS = "## Codes of scripts"


def code_parts(guide=GUIDE):
    """Each code with its part of the guide."""
    pieces = re.split(r"^(#+ .*)\n", guide.read_text(encoding="utf-8"), flags=re.M)
    return {heading[4:]: part.strip() for heading, part in zip(pieces[1::2], pieces[2::2]) if heading[:4] == "### "}


def codes_of_traits(guide=GUIDE):
    """The codes that a trait can have, in their order by letters; the guide's others are those of scripts."""
    return sorted(re.findall(r"^### ([A-Z-]+)$", guide.read_text(encoding="utf-8").partition(OF_SCRIPTS)[0], re.M))


@functools.lru_cache(1)
def known_parts():
    """The parts, read once; where the guide isn't there, none."""
    try:
        return code_parts()
    except OSError:
        return {}


def before_example(part):
    """What a part says before its first example, whose file may have a name that stands over it; on one line."""
    return " ".join(re.split(r"(?m)^```|^`\w+\.lsl`:$", part)[0].split())


def general(code):
    """What is said of a code in general, on one line."""
    return before_example(known_parts().get(code, ""))


def sentence(code, parts):
    """A code and what its part says before its first example, on one line."""
    return f"{code}: {before_example(parts.get(code, ''))}"
