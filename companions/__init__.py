"""What stands around the program: the cause of a refusal and how to mend it, hints at what is well formed and yet
suspect, finite models and proofs that are looked for. It needs python3 alone, and nothing of it is proved.

Two calls are what editors and commands need:

    causes.explain(files, refusal) -> Cause      why a file is refused; `causes.all_causes` what is wrong behind as well
    hints.hints(files, trait) -> list[Hint]      what is suspect in a trait with which nothing is wrong

`files` are the bytes of files by their names, as `T.lsl`; a `program.Refusal` is what a report says of one of them:
file, line, column, code. Who asks often keeps a `causes.Explainer`, which has a session for its questions and knows
what it has found. Places are offsets of bytes, `start` and `end`; a change has edits of such places.

    program       the program's calls: sessions, `check`, what a session takes
    explain       the texts of the codes, which stand in docs/TRAITS.md
    tokens, declarations, scope, terms    a light reading of traits, which takes any bytes
    cases         a refusal with all that is known of it, and the questions to the program
    lexical, syntax (structure, shapes, shapes_of_terms, habits), reading (undeclared), items, referring
                  the causes, by what codes are about
    further       what is wrong behind the first refusal
    listed, finite    what `larch obligations` lists, with its terms read, and the search for a finite model of it
    scripts, formulas    a light reading of proof scripts and of reports on them, and of goals
    moves, proving, flat, trying    the search for a proof: what is tried, the goals that a block opens, the trait in
                  which it is tried, and the search itself
    spelling, wording, showing    names that are near, pieces of titles, and how all is shown in a terminal
    samples       wrong traits and their titles, which tools/gate/check_causes.py tries
"""
