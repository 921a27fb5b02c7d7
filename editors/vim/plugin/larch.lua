-- Neovim alone reads this: it starts the checkout's language server in buffers of traits and of scripts. Where
-- vim.g.larch_program is set, that is the program; where vim.g.larch_server is false, no server is started; where
-- vim.g.larch_hints is false, it says errors alone. :LarchGoal opens and closes a window with the goal at the cursor.
local here = vim.fn.fnamemodify(debug.getinfo(1, 'S').source:sub(2), ':p:h:h:h')
local client -- where vim.lsp.start, which looks for a running one by its name, isn't there
local space = vim.api.nvim_create_namespace('larch')
local groups = { namespace = 'Structure', type = 'Type', ['function'] = 'Function', variable = 'Identifier',
  property = 'Identifier' }

-- Puts the colours of names by their kinds into a buffer: five numbers for each, its place counted from the one before.
local function put_colours(buffer, names, data)
  vim.api.nvim_buf_clear_namespace(buffer, space, 0, -1)
  local line, column = 0, 0
  for at = 1, #data, 5 do
    line, column = line + data[at], (data[at] > 0 and 0 or column) + data[at + 1]
    local text = vim.api.nvim_buf_get_lines(buffer, line, line + 1, false)[1] or ''
    local fits, first = pcall(vim.str_byteindex, text, column, true)
    local ends, last = pcall(vim.str_byteindex, text, column + data[at + 2], true)
    if fits and ends and last <= #text then
      vim.api.nvim_buf_set_extmark(buffer, space, line, first,
        { end_col = last, hl_group = groups[names[data[at + 3] + 1]] })
    end
  end
end

local function colour(server, buffer)
  local params = { textDocument = vim.lsp.util.make_text_document_params(buffer) }
  server.request('textDocument/semanticTokens/full', params, function(trouble, found)
    if not trouble and found and vim.api.nvim_buf_is_valid(buffer) then
      put_colours(buffer, server.server_capabilities.semanticTokensProvider.legend.tokenTypes, found.data)
    end
  end, buffer)
end

-- Completion by <C-x><C-o>, and colours by kinds where Neovim has none of its own.
local function on_attach(server, buffer)
  vim.api.nvim_buf_set_option(buffer, 'omnifunc', 'v:lua.vim.lsp.omnifunc')
  if vim.lsp.semantic_tokens or vim.bo[buffer].filetype == 'larchlp' then return end
  colour(server, buffer)
  vim.api.nvim_create_autocmd({ 'TextChanged', 'InsertLeave' }, {
    buffer = buffer, callback = function() colour(server, buffer) end })
end

local panel -- the buffer of the window with the goal

-- Asks for what is left behind the cursor's line of a script, and puts it into the window.
local function show_goal()
  if vim.bo.filetype ~= 'larchlp' or not panel or vim.fn.bufwinid(panel) == -1 then return end
  local buffer = vim.api.nvim_get_current_buf()
  vim.lsp.buf_request(buffer, 'larch/goal', vim.lsp.util.make_position_params(), function(trouble, found)
    if trouble or not vim.api.nvim_buf_is_valid(panel) then return end
    vim.api.nvim_buf_set_lines(panel, 0, -1, false, found and found.lines or { 'no block here' })
  end)
end

local function toggle_goal()
  if panel and vim.fn.bufwinid(panel) ~= -1 then
    vim.api.nvim_win_close(vim.fn.bufwinid(panel), true)
    return
  end
  local script = vim.api.nvim_get_current_win()
  panel = panel and vim.api.nvim_buf_is_valid(panel) and panel or vim.api.nvim_create_buf(false, true)
  vim.cmd('botright 6split')
  vim.api.nvim_win_set_buf(0, panel)
  vim.api.nvim_set_current_win(script)
  show_goal()
end

vim.api.nvim_create_user_command('LarchGoal', toggle_goal, {})
vim.api.nvim_create_autocmd({ 'CursorMoved', 'CursorMovedI', 'TextChanged', 'TextChangedI' }, {
  pattern = '*.lp', callback = show_goal })

local function attach(buffer)
  if vim.g.larch_server == false then return end
  local command = { here .. '/larch-lsp' }
  if vim.g.larch_program then vim.list_extend(command, { '--larch', vim.g.larch_program }) end
  if vim.g.larch_hints == false then vim.list_extend(command, { '--no-hints' }) end
  local what = { name = 'larch', cmd = command, root_dir = vim.fn.getcwd(), on_attach = on_attach }
  if vim.lsp.start then
    vim.lsp.start(what, { bufnr = buffer })
    return
  end
  if not client or vim.lsp.client_is_stopped(client) then client = vim.lsp.start_client(what) end
  if client then vim.lsp.buf_attach_client(buffer, client) end
end

vim.api.nvim_create_autocmd('FileType', {
  pattern = { 'larch', 'larchlp' }, callback = function(found) attach(found.buf) end })
