-- Opens a.v, sees the error in the list of diagnostics, edits it away and sees it go, makes one behind a wide
-- character and sees it where it stands, and leaves by shutdown and exit. All settings are Neovim's own, so changes
-- are sent as ranges.
local program = os.getenv('FLECHE_PROGRAM')
local ended

local function fail(text)
  io.stderr:write(text .. '\n')
  vim.cmd('cquit 1')
end

local function await(what, test)
  if not vim.wait(20000, test, 20) then
    fail('waited in vain for ' .. what)
  end
end

local function expect(what, got, wanted)
  if not vim.deep_equal(got, wanted) then
    fail(what .. ': ' .. vim.inspect(got) .. ', wanted ' .. vim.inspect(wanted))
  end
end

vim.cmd('edit a.v')
local buffer = vim.api.nvim_get_current_buf()
local id = vim.lsp.start_client({
  name = 'fleche',
  cmd = { program, 'serve' },
  root_dir = vim.fn.getcwd(),
  on_exit = function(code, signal)
    ended = { code = code, signal = signal }
  end,
})
if not id then
  fail('the server did not start')
end
vim.lsp.buf_attach_client(buffer, id)

-- The one error, from a byte of the first line to another.
local function expect_error(from, to)
  await('the error', function()
    return #vim.diagnostic.get(buffer) > 0
  end)
  local found = vim.diagnostic.get(buffer)
  expect('how many diagnostics', #found, 1)
  local error = found[1]
  expect('its place', { error.lnum, error.col, error.end_lnum, error.end_col }, { 0, from, 0, to })
  expect('its message', error.message, 'name taken')
  expect('its severity', error.severity, vim.diagnostic.severity.ERROR)
  expect('its source', error.source, 'fleche')
end

-- Puts a text in place of what stands between two bytes of the first line.
local function edit(from, to, text)
  vim.api.nvim_buf_set_text(buffer, 0, from, 0, to, { text })
end

expect_error(16, 30)
edit(22, 23, 'B')
await('the error to go', function()
  return #vim.diagnostic.get(buffer) == 0
end)
edit(0, 0, '(* 𝒙 *) ')
edit(33, 34, 'A')
expect_error(27, 41)

vim.lsp.get_client_by_id(id).stop()
await('the server to end', function()
  return ended ~= nil
end)
expect('how the server ended', ended, { code = 0, signal = 0 })
vim.cmd('qall!')
