#!/usr/bin/env python3
"""Neovim, headless, as a user has it: python3 tools/gate/check_neovim.py [PROGRAM]

It opens a trait with a wrong line, waits for the diagnostic and its title, takes the quick fix, and waits until the
diagnostic is gone; then the same with a trait whose fault lies in an included file, which it mends there. In a right
trait it asks, by the keys that docs/EDITORS.md binds, for hover, definition, references, completion and a new name, and
looks at the colours of names and at a hint. In a script it sees the goal move as commands are typed, and a mark that is
missing is written by its quick fix. Says what it saw. Ends with 1 where something else is seen; where Neovim
isn't installed it says so and ends with 0."""
import json
import pathlib
import re
import shutil
import subprocess
import sys
import tempfile

sys.path.insert(0, str(pathlib.Path(__file__).resolve().parents[1]))
from desk import TOP  # noqa: E402
from companions.explain import code_parts, sentence  # noqa: E402

PAGE = TOP / "docs/EDITORS.md"
COMMON = """
local seen = {}
local function diagnostics(file)
  local found = {}
  for _, one in ipairs(vim.diagnostic.get(vim.fn.bufnr(file))) do
    table.insert(found, { one.lnum + 1, one.col + 1, one.code or one.user_data.lsp.code, one.message })
  end
  return found
end
local function wait_for(file, count, text)
  vim.wait(60000, function()
    local found = diagnostics(file)
    return #found == count and (not text or found[1][4]:find(text, 1, true) == 1)
  end, 20)
  table.insert(seen, diagnostics(file))
end
local function finish()
  vim.fn.writefile({ vim.fn.json_encode(seen) }, 'seen')
  vim.cmd('qall!')
end
"""
ERRORS = """
vim.cmd('edit T.lsl')
wait_for('T.lsl', 1, vim.fn.filereadable('Base.lsl') == 1 and '`Base` is' or 'missing')
if vim.fn.filereadable('Base.lsl') == 1 then
  vim.cmd('edit Base.lsl')
  wait_for('Base.lsl', 1, 'missing')
  vim.fn.setline(3, '    c: -> S')
else
  vim.fn.cursor(3, 7)
  vim.ui.select = function(found, _, chosen) chosen(found[1], 1) end
  vim.lsp.buf.code_action()
end
wait_for(vim.fn.expand('%:t'), 0)
wait_for('T.lsl', 0)
finish()
"""
NAMES = """
vim.cmd('edit T.lsl')
wait_for('T.lsl', 1)
local function keys(typed)
  vim.api.nvim_feedkeys(vim.api.nvim_replace_termcodes(typed, true, false, true), 'x', true)
end
local function see(is_there, what)
  vim.wait(30000, is_there, 20)
  table.insert(seen, what())
end
local function float()
  for _, window in ipairs(vim.api.nvim_list_wins()) do
    if vim.api.nvim_win_get_config(window).relative ~= '' then return window end
  end
end
vim.fn.cursor(7, 8)
keys('K')
see(float, function()
  return float() and vim.api.nvim_buf_get_lines(vim.api.nvim_win_get_buf(float()), 0, 1, false)[1]
end)
keys('gd')
see(function() return vim.fn.expand('%:t') == 'Base.lsl' end, function()
  return vim.fn.expand('%:t') .. vim.fn.line('.')
end)
vim.cmd('edit T.lsl')
vim.fn.cursor(7, 8)
keys('gr')
see(function() return #vim.fn.getqflist() > 0 end, function() return #vim.fn.getqflist() end)
vim.cmd('cclose | edit T.lsl')
see(function() return vim.bo.omnifunc ~= '' end, function()
  vim.fn.cursor(7, 8)
  local found = vim.lsp.buf_request_sync(0, 'textDocument/completion', vim.lsp.util.make_position_params(), 20000)
  for _, answer in pairs(found or {}) do
    for _, item in ipairs(answer.result) do if item.label == 'made' then return item.detail end end
  end
end)
see(function() return true end, function()
  local space = vim.api.nvim_get_namespaces().larch
  if vim.lsp.semantic_tokens then return 'Function' end
  vim.wait(20000, function() return #vim.api.nvim_buf_get_extmarks(0, space, { 6, 7 }, { 6, 7 }, {}) > 0 end, 20)
  local marks = vim.api.nvim_buf_get_extmarks(0, space, { 6, 7 }, { 6, 7 }, { details = true })
  return marks[1] and marks[1][4].hl_group
end)
vim.fn.cursor(4, 5)
vim.lsp.buf.rename('shown')
see(function() return vim.fn.getline(4):find('shown') end, function() return vim.fn.getline(4) .. vim.fn.getline(7) end)
finish()
"""
SCRIPT = """
vim.cmd('edit Plus.lp')
wait_for('Plus.lp', 1)
vim.cmd('LarchGoal')
local function panel()
  for _, window in ipairs(vim.api.nvim_list_wins()) do
    local buffer = vim.api.nvim_win_get_buf(window)
    if vim.bo[buffer].buftype == 'nofile' then return vim.api.nvim_buf_get_lines(buffer, 0, -1, false) end
  end
end
local function see_goal(text)
  vim.wait(30000, function() return panel() and panel()[2] and panel()[2]:find(text, 1, true) end, 20)
  table.insert(seen, panel())
end
vim.fn.cursor(2, 1)
vim.cmd('doautocmd CursorMoved')
see_goal('1 goal is open')
vim.fn.setline(3, '  resume by induction on x')
vim.fn.cursor(3, 3)
vim.cmd('doautocmd TextChanged')
see_goal('proved')
vim.fn.setline(4, '  qed')
vim.cmd('doautocmd TextChanged')
wait_for('Plus.lp', 1, 'imply.1\\nMARK')
vim.fn.cursor(4, 3)
vim.ui.select = function(found, _, chosen) chosen(found[1], 1) end
vim.lsp.buf.code_action()
vim.wait(30000, function() return vim.fn.getline(4) ~= '  qed' end, 20)
table.insert(seen, vim.fn.getline(4))
finish()
"""
PLUS = {"Plus.lsl": "Plus: trait\n  introduces\n    0: -> N\n    s: N -> N\n    __ + __: N, N -> N\n  asserts\n"
                    "    N generated by 0, s\n    \\forall x, y: N\n      x + 0 == x;\n      x + s(y) == s(x + y)\n"
                    "  implies\n    \\forall x: N\n      0 + x == x\n",
        "Plus.lp": "set box-checking on\nduty imply.1\n"}
RIGHT = {"Base.lsl": "Base: trait\n  introduces\n    made: S -> S\n",
         "T.lsl": "T: trait\n  includes Base\n  introduces\n    told: S -> S\n  asserts\n    \\forall x, y: S\n"
                  "      (made(told(x)) = x)\n"}


def bound():
    """The lines that bind keys, as docs/EDITORS.md has them."""
    return re.search(r"```vim\n(.*?)```", PAGE.read_text(encoding="utf-8"), re.S)[1]


def seen(program, files, script):
    """What Neovim shows in a folder of these files, step by step; each diagnostic as line, column, code and text."""
    with tempfile.TemporaryDirectory() as place:
        folder = pathlib.Path(place)
        for name, text in {**files, "script.lua": COMMON + script, "keys.vim": bound()}.items():
            (folder / name).write_text(text)
        subprocess.run(["nvim", "--headless", "-u", "NONE", "-i", "NONE", "--cmd", f"set rtp+={TOP}/editors/vim",
                        "--cmd", f"let g:larch_program = '{program}'", "--cmd", "filetype plugin on",
                        "--cmd", "runtime! plugin/larch.lua", "--cmd", "source keys.vim", "-c", "luafile script.lua"],
                       cwd=folder, timeout=300, stdin=subprocess.DEVNULL, stdout=subprocess.DEVNULL)
        return json.loads((folder / "seen").read_text())


def compare(title, found, wanted):
    print(f"{title}: {'as wanted' if found == wanted else f'saw {found} and wanted {wanted}'}")
    return found != wanted


def ends(found):
    """The diagnostics with the last line of each text, where the part of the code stands."""
    return [[[*one[:3], one[3].split("\n")[-1]] for one in step] for step in found]


def main():
    program = str(pathlib.Path(sys.argv[1]).resolve() if len(sys.argv) > 1 else TOP / "larch")
    if not shutil.which("nvim"):
        print("nvim is not installed: nothing was tried")
        return 0
    parts = code_parts()
    wrong = {"T.lsl": "T: trait\n  introduces\n    c -> S\n"}
    syntax = [3, 7, "SYNTAX", sentence("SYNTAX", parts)]
    worse = compare("a wrong line comes, and goes by its quick fix", ends(seen(program, wrong, ERRORS)),
                    [[syntax], [], []])
    files = {"Base.lsl": wrong["T.lsl"].replace("T", "Base"), "T.lsl": "T: trait\n  includes Base\n"}
    above = [2, 12, "BAD-REFERENCE", sentence("BAD-REFERENCE", parts)]
    found = ends(seen(program, files, ERRORS))
    worse |= compare("a fault in an included file comes and goes", found, [[above], [syntax], [], []])
    hint = [6, 16, "unused-variable", "the variable `y` isn't used"]
    found = seen(program, RIGHT, NAMES)
    worse |= compare("a hint, hover, definition, references, completion, colours and a new name", found,
                     [[hint], "made: S -> S", "Base.lsl3", 2, "made: S -> S", "Function",
                      "    shown: S -> S      (made(shown(x)) = x)"])
    found = seen(program, PLUS, SCRIPT)
    head = "imply.1  0 + x == x"
    open_goal = [2, 1, "suspended", "imply.1: 1 goal is open: (0 + x) = x"]
    worse |= compare("the goal of a script, and a mark", [*found[:3], [one[:3] for one in found[3]], found[4]],
                     [[open_goal], [head, "behind line 2: 1 goal is open", "  (0 + x) = x"],
                      [head, "behind line 3: proved"], [[4, 3, "MARK"]], "  <>"])
    return int(worse)


if __name__ == "__main__":
    sys.exit(main())
