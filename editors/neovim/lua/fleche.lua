-- Fleche in Neovim (0.7 or later): starts the server for `.v` files, shows the goals at the cursor in a side window, and marks the
-- text that is still being checked. Diagnostics and outline are by Neovim's own means (`vim.diagnostic`,
-- `vim.lsp.buf.document_symbol`). In `init.lua`, with this folder's `editors/neovim` on the runtime path:
--
--   require('fleche').setup({ program = '/path/to/crates/fleche_main/out/fleche_main' })
--
-- `:FlecheGoals` opens the window of goals, `:FlecheGoals!` closes it.
local M = {}

local options = { program = 'fleche_main', mode = 'After' }
local marks = vim.api.nvim_create_namespace('fleche')
local client
local goals = { buffer = nil, window = nil }

-- The lines that show a goal: its hypotheses, the oldest first, a rule, its type.
local function goal_lines(goal, title, lines)
  if title then
    table.insert(lines, title)
  end
  for _, hyp in ipairs(goal.hyps) do
    local value = hyp.def and (' := ' .. hyp.def) or ''
    table.insert(lines, table.concat(hyp.names, ' ') .. ' : ' .. hyp.ty .. value)
  end
  table.insert(lines, string.rep('=', 30))
  vim.list_extend(lines, vim.split(goal.ty, '\n'))
  table.insert(lines, '')
end

-- The lines that show an answer to `proof/goals`: the goals in focus, and how many wait at each level or were given up.
function M.lines(answer)
  local lines = {}
  local shown = answer.goals
  if shown == nil or shown == vim.NIL then
    return { 'No proof is under way.' }
  end
  local count = #shown.goals
  if count == 0 then
    table.insert(lines, 'No goal is in focus.')
  end
  for place, goal in ipairs(shown.goals) do
    goal_lines(goal, count > 1 and ('Goal ' .. place .. ' of ' .. count) or nil, lines)
  end
  for level, pair in ipairs(shown.stack) do
    if #pair[2] > 0 then
      table.insert(lines, #pair[2] .. ' waiting at level ' .. level)
    end
  end
  if #shown.given_up > 0 then
    table.insert(lines, #shown.given_up .. ' given up')
  end
  return lines
end

-- Shows the goals at the cursor of a buffer. An answer to an older text or place is dropped by the server or here.
local asked = 0
function M.show(buffer)
  if not (client and goals.buffer and vim.api.nvim_buf_is_valid(goals.buffer)) then
    return
  end
  asked = asked + 1
  local now = asked
  local params = vim.lsp.util.make_position_params(0, vim.lsp.get_client_by_id(client).offset_encoding)
  params.mode = options.mode
  vim.lsp.get_client_by_id(client).request('proof/goals', params, function(err, answer)
    if now ~= asked or err or not answer or not vim.api.nvim_buf_is_valid(goals.buffer) then
      return
    end
    vim.api.nvim_buf_set_lines(goals.buffer, 0, -1, false, M.lines(answer))
  end, buffer)
end

-- Opens the window of goals beside the text.
function M.open()
  local text = vim.api.nvim_get_current_win()
  if not (goals.buffer and vim.api.nvim_buf_is_valid(goals.buffer)) then
    goals.buffer = vim.api.nvim_create_buf(false, true)
    vim.api.nvim_buf_set_name(goals.buffer, 'Goals')
  end
  if not (goals.window and vim.api.nvim_win_is_valid(goals.window)) then
    vim.cmd('rightbelow vsplit')
    goals.window = vim.api.nvim_get_current_win()
    vim.api.nvim_win_set_buf(goals.window, goals.buffer)
    vim.api.nvim_set_current_win(text)
  end
  M.show(vim.api.nvim_get_current_buf())
end

function M.close()
  if goals.window and vim.api.nvim_win_is_valid(goals.window) then
    vim.api.nvim_win_close(goals.window, true)
  end
  goals.window = nil
end

-- Marks what is still to be checked.
local function progress(_, params)
  local buffer = vim.uri_to_bufnr(params.textDocument.uri)
  if not vim.api.nvim_buf_is_loaded(buffer) then
    return
  end
  vim.api.nvim_buf_clear_namespace(buffer, marks, 0, -1)
  local last = vim.api.nvim_buf_line_count(buffer)
  for _, left in ipairs(params.processing) do
    local from, to = left.range.start.line, math.min(left.range['end'].line + 1, last)
    if from < to then
      vim.api.nvim_buf_set_extmark(buffer, marks, from, 0, { end_row = to, hl_group = 'FlecheProcessing', hl_eol = true, strict = false })
    end
  end
  vim.b[buffer].fleche_checking = #params.processing > 0
  if #params.processing == 0 and buffer == vim.api.nvim_get_current_buf() then
    M.show(buffer)
  end
end

-- Starts the server once, and gives it this buffer.
function M.attach(buffer)
  client = client or vim.lsp.start_client({
    name = 'fleche',
    cmd = { options.program, 'serve' },
    root_dir = vim.fn.getcwd(),
    handlers = { ['$/coq/fileProgress'] = progress },
    on_exit = function()
      client = nil
    end,
  })
  if client then
    vim.lsp.buf_attach_client(buffer, client)
  end
  return client
end

function M.setup(given)
  options = vim.tbl_extend('force', options, given or {})
  vim.cmd('highlight default link FlecheProcessing CursorLine')
  local group = vim.api.nvim_create_augroup('fleche', {})
  vim.api.nvim_create_autocmd({ 'BufNewFile', 'BufRead' }, { group = group, pattern = '*.v', callback = function(event)
    M.attach(event.buf)
    vim.api.nvim_create_autocmd({ 'CursorHold', 'CursorHoldI' }, { group = group, buffer = event.buf, callback = function()
      M.show(event.buf)
    end })
  end })
  vim.api.nvim_create_user_command('FlecheGoals', function(command)
    (command.bang and M.close or M.open)()
  end, { bang = true })
end

return M
