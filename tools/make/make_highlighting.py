#!/usr/bin/env python3
"""Makes the files by which editors colour traits and proof scripts: python3 tools/make/make_highlighting.py

The words are those of editors/words.txt. `files()` has each file's path with its text; run as a program it writes
them."""
import json
import pathlib

TOP = pathlib.Path(__file__).resolve().parents[2]
MADE = "Made by tools/make/make_highlighting.py of editors/words.txt"
VIM_NAMES = {"lsl": "larch", "lp": "larchlp"}
SCRIPT_KINDS = ("command", "option")
# The bytes of which runs are made, `/` aside, as in a class of a pattern.
RUN = "!#$&*+<>=?@^|~-"
# What each kind is to Vim, to Emacs and to a TextMate grammar.
KINDS = {
    "comment": ("Comment", "font-lock-comment-face", "comment.line.percentage"),
    "part": ("Statement", "font-lock-keyword-face", "keyword.control.part"),
    "clause": ("Keyword", "font-lock-keyword-face", "keyword.other.clause"),
    "choice": ("Conditional", "font-lock-keyword-face", "keyword.control.choice"),
    "quantifier": ("Keyword", "font-lock-keyword-face", "keyword.other.quantifier"),
    "fixed": ("Operator", "font-lock-builtin-face", "keyword.operator.fixed"),
    "builtin": ("Constant", "font-lock-constant-face", "constant.language.builtin"),
    "sort": ("Type", "font-lock-type-face", "support.type.sort"),
    "marker": ("Special", "font-lock-preprocessor-face", "punctuation.definition.marker"),
    "symbol": ("Function", "font-lock-function-name-face", "entity.name.function.symbol"),
    "command": ("Statement", "font-lock-keyword-face", "keyword.control.command"),
    "option": ("Keyword", "font-lock-builtin-face", "keyword.other.option"),
    "mark": ("Special", "font-lock-preprocessor-face", "markup.bold.mark"),
}


def words():
    """Each kind with its words."""
    lines = (TOP / "editors/words.txt").read_text().splitlines()
    return {line.split()[0]: line.split()[1:] for line in lines if line and not line.startswith("#")}


def kinds_of(language):
    """The kinds whose words a language has as whole words, the later before the earlier where both have a word."""
    table = words()
    wanted = ["choice", "builtin", "sort"] + (["part", "clause"] if language == "lsl" else list(SCRIPT_KINDS))
    return {kind: table[kind] for kind in wanted}


def quoted(word, special):
    return "".join("\\" + letter if letter in special else letter for letter in word)


def vim(language):
    def group(kind):
        return "larch" + kind.capitalize()

    def fixed(kind):
        return r"\|".join(quoted(word, r"\~*.$^[") for word in words()[kind])

    run = rf"\%([{RUN}]\|/\\\@!\)"
    lines = [f'" {MADE}.', "if exists('b:current_syntax')", "  finish", "endif",
             "syntax iskeyword @,48-57,39,_" + (",-" if language == "lp" else "")]
    lines += [f"syntax keyword {group(kind)} {' '.join(names)}" for kind, names in kinds_of(language).items()]
    lines += [f'syntax match larchSymbol "{run}\\+"', r'syntax match larchSymbol "\\\a\+"',
              r'syntax match larchMarker "__"',
              f'syntax match larchFixed "\\%({fixed("fixed")}\\)\\%({run}\\)\\@!"',
              r'syntax match larchFixed "/\\\|\\/"',
              f'syntax match larchQuantifier "\\%({fixed("quantifier")}\\)\\a\\@!"',
              'syntax match larchComment "%.*"']
    if language == "lp":
        lines += [f'syntax match larchMark "\\%(^\\s*\\)\\@<=\\%({fixed("mark")}\\)" nextgroup=larchBehindMark',
                  'syntax match larchBehindMark ".*" contained', "highlight default link larchBehindMark Comment"]
    used = [kind for kind in KINDS if language == "lp" or kind not in (*SCRIPT_KINDS, "mark")]
    lines += [f"highlight default link {group(kind)} {KINDS[kind][0]}" for kind in used]
    return "\n".join([*lines, f"let b:current_syntax = '{VIM_NAMES[language]}'", ""])


def emacs():
    def text(word):
        return '"' + quoted(word, '\\"') + '"'

    lines = [";;; larch-words.el --- Words of traits and proof scripts  -*- lexical-binding: t -*-", f";; {MADE}.",
             ";;; Code:"]
    lines += [f"(defconst larch-{kind}-words\n  '({' '.join(map(text, names))}))" for kind, names in words().items()]
    lines += [f'(defface larch-{kind} \'((t :inherit {faces[1]})) "What is of the kind `{kind}\'." :group \'larch)'
              for kind, faces in KINDS.items()]
    return "\n".join([*lines, "(provide 'larch-words)", ";;; larch-words.el ends here", ""])


def textmate(language):
    def rule(kind, match):
        return {"name": f"{KINDS[kind][2]}.{language}", "match": match}

    def fixed(kind):
        return "|".join(quoted(word, r"\~*.$^[]|+?(){}") for word in words()[kind])

    run = rf"(?:[{RUN}]|/(?!\\))"
    hyphen = "-" if language == "lp" else ""
    rules = [rule("comment", "%.*")]
    if language == "lp":
        rules += [{"match": rf"^\s*({fixed('mark')})(.*)", "captures": {
            "1": {"name": f"{KINDS['mark'][2]}.lp"}, "2": {"name": "comment.line.comment.lp"}}}]
    rules += [rule(kind, rf"(?<![A-Za-z0-9'_{hyphen}])(?:{'|'.join(names)})(?![A-Za-z0-9'_{hyphen}])")
              for kind, names in kinds_of(language).items()]
    rules += [rule("quantifier", rf"(?:{fixed('quantifier')})(?![A-Za-z])"), rule("fixed", r"/\\|\\/"),
              rule("fixed", rf"(?:{fixed('fixed')})(?!{run})"), rule("symbol", rf"{run}+"),
              rule("symbol", r"\\[A-Za-z]+"), rule("marker", "__")]
    grammar = {"information_for_contributors": [MADE], "name": {"lsl": "Larch traits", "lp": "Larch scripts"}[language],
               "scopeName": f"source.{language}", "fileTypes": [language], "patterns": rules}
    return json.dumps(grammar, indent=2) + "\n"


def files():
    return {**{f"editors/vim/syntax/{name}.vim": vim(language) for language, name in VIM_NAMES.items()},
            "editors/emacs/larch-words.el": emacs(),
            "editors/vscode/syntaxes/lsl.tmLanguage.json": textmate("lsl"),
            "editors/vscode/syntaxes/lp.tmLanguage.json": textmate("lp")}


if __name__ == "__main__":
    for path, text in files().items():
        (TOP / path).write_text(text)
        print(path)
