-- The plugin for Neovim: it starts the server for a file, shows the goals at the cursor and other ones after an edit, shows what is
-- declared, and marks what is being checked until it is checked.
local here = vim.fn.fnamemodify(debug.getinfo(1, 'S').source:sub(2), ':p:h')
vim.opt.runtimepath:append(here .. '/../../editors/neovim')
local fleche = require('fleche')
fleche.setup({ program = os.getenv('FLECHE_PROGRAM') })

local function fail(text)
  io.stderr:write(text .. '\n')
  vim.cmd('cquit 1')
end

local function await(what, test)
  if not vim.wait(20000, test, 20) then
    fail('waited in vain for ' .. what)
  end
end

local function expect(what, got, wanted)
  if not vim.deep_equal(got, wanted) then
    fail(what .. ': ' .. vim.inspect(got) .. ', wanted ' .. vim.inspect(wanted))
  end
end

vim.fn.writefile({ 'Theorem t : True /\\ True.', 'split.', '- exact I.', '- exact I.', 'Qed.' }, 'proof.v')
vim.cmd('edit proof.v')
local buffer = vim.api.nvim_get_current_buf()
await('the end of the check', function()
  return vim.b[buffer].fleche_checking == false
end)

-- The text of the window of goals.
local function shown()
  local window = vim.fn.bufwinid('Goals')
  return window == -1 and {} or vim.api.nvim_buf_get_lines(vim.api.nvim_win_get_buf(window), 0, -1, false)
end

local function expect_goals(what, lines)
  fleche.show(buffer)
  await(what, function()
    return vim.deep_equal(shown(), lines)
  end)
end

local rule = string.rep('=', 30)
vim.cmd('FlecheGoals')
vim.api.nvim_win_set_cursor(0, { 2, 0 })
expect_goals('both goals', { 'Goal 1 of 2', rule, 'True', '', 'Goal 2 of 2', rule, 'True', '' })
vim.api.nvim_win_set_cursor(0, { 3, 0 })
expect_goals('a bullet', { rule, 'True', '', '1 waiting at level 1' })
vim.api.nvim_win_set_cursor(0, { 5, 0 })
expect_goals('the end', { 'No proof is under way.' })

vim.api.nvim_buf_set_lines(buffer, 0, 1, false, { 'Theorem t : True /\\ (True -> True).' })
vim.api.nvim_win_set_cursor(0, { 2, 0 })
expect_goals('goals after an edit', { 'Goal 1 of 2', rule, 'True', '', 'Goal 2 of 2', rule, 'True -> True', '' })
await('the error of the edit', function()
  return #vim.diagnostic.get(buffer) > 0
end)

local id = vim.lsp.buf_get_clients(buffer)
local _, client = next(id)
local answers = client.request_sync('textDocument/documentSymbol', { textDocument = vim.lsp.util.make_text_document_params(buffer) }, 20000, buffer)
expect('what is declared', { #answers.result, answers.result[1].name, answers.result[1].detail }, { 1, 't', 'True /\\ (True -> True)' })

local long = {}
for n = 1, 3000 do
  table.insert(long, 'Axiom a' .. n .. ' : Prop.')
end
vim.api.nvim_buf_set_lines(buffer, 0, -1, false, long)
await('progress', function()
  return vim.b[buffer].fleche_checking == true
end)
await('the end of a long check', function()
  return vim.b[buffer].fleche_checking == false
end)
await('no diagnostics', function()
  return #vim.diagnostic.get(buffer) == 0
end)
vim.cmd('FlecheGoals!')
expect('the window is closed', vim.fn.bufwinid('Goals'), -1)
client.stop()
vim.cmd('qall!')
