-- What `.ci/server` has Neovim do without a window: it opens a machine file, types a mistake, and asks what a user would. Each line of the file
-- $SAID is 'ok TITLE', or 'no TITLE: what was there'.
local room, said = os.getenv('ROOM'), {}

local function judge(title, is_good, found)
  table.insert(said, is_good and 'ok ' .. title or 'no ' .. title .. ': ' .. vim.inspect(found):gsub('%s+', ' '))
end

-- What was found, once it is as many as that, or else after ten seconds.
local function found(count)
  vim.wait(10000, function() return #vim.diagnostic.get(0) == count end, 10)
  return vim.diagnostic.get(0)
end

-- The answer to a request at a line, from 1, and a byte of it, from 0.
local function ask(method, line, byte, more)
  vim.api.nvim_win_set_cursor(0, { line, byte })
  local params = vim.tbl_extend('force', vim.lsp.util.make_position_params(0, 'utf-16'), more or {})
  local answers = vim.lsp.buf_request_sync(0, 'textDocument/' .. method, params, 10000)
  for _, answer in pairs(answers or {}) do return answer.result end
end

local function set(line, text)
  vim.api.nvim_buf_set_lines(0, line - 1, line, true, { text })
end

local function try()
  vim.cmd('edit ' .. room .. '/job.toml')
  local client = vim.lsp.start_client({ name = 'execcheck', cmd = { os.getenv('EXECCHECK'), '--lsp' }, root_dir = room })
  judge('the server is attached', vim.lsp.buf_attach_client(0, client), client)

  local begun = vim.loop.hrtime()
  local run = found(1)
  judge('the run over the event text beside the file is looked at', #run == 1 and run[1].lnum == 4, run)

  set(5, "  'x = Pritn 1',")
  local typed = found(1)
  vim.wait(10000, function() return (vim.diagnostic.get(0)[1] or {}).code == 'BadCommand' end, 10)
  typed = vim.diagnostic.get(0)
  judge('a mistake is seen at its column', #typed == 1 and typed[1].lnum == 4 and typed[1].col == 7 and typed[1].end_col == 12, typed)
  judge('it is an error, with its rule', #typed == 1 and typed[1].severity == 1 and typed[1].code == 'BadCommand', typed)

  local range = { start = { line = 4, character = 7 }, ['end'] = { line = 4, character = 12 } }
  local actions = ask('codeAction', 5, 7, { range = range, context = { diagnostics = {} } })
  judge('a fix is offered', actions and #actions == 1 and actions[1].edit, actions)
  if actions and actions[1] then vim.lsp.util.apply_workspace_edit(actions[1].edit, 'utf-16') end
  local mended = vim.api.nvim_buf_get_lines(0, 4, 5, true)[1]
  judge('the fix is applied', mended and mended:find('Print 1') and not mended:find('Pritn'), mended)

  set(5, "  'x = AllocSignal -1', 'Print x', 'again:', 'Jump again',")
  local hover = ask('hover', 5, 8)
  judge('a word is shown', hover and hover.contents.value:find('AllocSignal') and hover.range.start.character == 7, hover)
  local variable = ask('hover', 5, 31)
  judge('a variable is shown with the line that sets it', variable and variable.contents.value:find('x = AllocSignal -1', 1, true), variable)
  local place = ask('definition', 5, 52)
  judge('a label is found', place and #place == 1 and place[1].range.start.character == 36, place)
  if place and place[1] then vim.lsp.util.jump_to_location(place[1], 'utf-16') end
  local cursor = vim.api.nvim_win_get_cursor(0)
  judge('the cursor goes there', cursor[1] == 5 and cursor[2] == 36, cursor)

  set(5, "  'x = AllocSignal -1', 'Wai")
  local offered = vim.lsp.util.text_document_completion_list_to_complete_items(ask('completion', 5, 28) or {}, 'Wai')
  local words = vim.tbl_map(function(it) return it.word end, offered)
  judge('words are offered while a string is open', vim.tbl_contains(words, 'Wait') and vim.tbl_contains(words, 'WaitPort') and #words < 8, words)

  local symbols = ask('documentSymbol', 1, 0)
  judge('the tasks are named', symbols and symbols[1] and symbols[1].name == 'task a', symbols)

  vim.cmd('bdelete!')
  vim.lsp.stop_client(client)
  local is_gone = vim.wait(10000, function() return vim.lsp.get_client_by_id(client) == nil or vim.lsp.get_client_by_id(client).is_stopped() end, 10)
  judge('the server ends', is_gone, client)
end

local is_whole, why = pcall(try)
judge('the script ends', is_whole, why)
vim.fn.writefile(said, os.getenv('SAID'))
vim.cmd('qall!')
