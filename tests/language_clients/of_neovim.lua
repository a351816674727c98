-- What Neovim's own client shows of the source text that is open, with the server of the environment's LAB. Each answer is a
-- line in the file of the environment's OUT.
local out = assert(io.open(os.getenv('OUT'), 'w'))
local function say(name, value)
  out:write(name, '\t', vim.fn.json_encode(value), '\n')
  out:flush()
end
local function wait(done)
  assert(vim.wait(20000, done, 5), 'nothing came')
end

local client_id
if vim.fn.has('nvim-0.11') == 1 then
  vim.lsp.config('mta_lab', { cmd = { os.getenv('LAB'), 'lsp' }, filetypes = { 'mta' } })
  vim.lsp.enable('mta_lab')
  vim.bo.filetype = 'mta'
  wait(function() return #vim.lsp.get_clients() > 0 end)
  client_id = vim.lsp.get_clients()[1].id
else
  client_id = vim.lsp.start_client({ name = 'mta_lab', cmd = { os.getenv('LAB'), 'lsp' } })
  vim.lsp.buf_attach_client(0, client_id)
end
local client = vim.lsp.get_client_by_id(client_id)
wait(function() return client.initialized and #vim.diagnostic.get(0) == 2 end)
local shown = {}
for _, it in ipairs(vim.diagnostic.get(0)) do
  table.insert(shown, { it.lnum, it.col, it.severity, it.code })
end
say('first', shown)

local document = { uri = vim.uri_from_bufnr(0) }
local function ask(method, params)
  local answer = vim.lsp.buf_request_sync(0, 'textDocument/' .. method, params, 20000)[client_id]
  return answer.result, answer.error or answer.err
end
-- the place of a pattern, from a line on
local function place_of(pattern, line)
  vim.fn.cursor(line or 1, 1)
  vim.fn.search(pattern, 'c')
  return vim.lsp.util.make_position_params(0, client.offset_encoding)
end
local hover = ask('hover', place_of('LIT'))
say('hover', vim.split(hover.contents.value, '\n')[1])
local completed = {}
for _, it in ipairs(ask('completion', place_of('NE')).items) do
  table.insert(completed, it.textEdit.newText)
end
say('completed', completed)
local line = vim.fn.search('SKIP NE', 'w')
local use = place_of('again', line)
say('definition', ask('definition', use).range.start)
use.context = { includeDeclaration = true }
say('references', #ask('references', use))
local symbols = {}
for _, it in ipairs(ask('documentSymbol', { textDocument = document })) do
  table.insert(symbols, it.name)
end
say('symbols', symbols)
use.newName = 'once'
local _, refused = ask('rename', use)
say('refused', refused.message)

-- the quick fix of the faulty line, as a user chooses it; and back
local offered = {}
vim.ui.select = function(items, options, choose)
  for _, it in ipairs(items) do
    table.insert(offered, (options.format_item(it)))
  end
  choose(items[1], 1)
end
place_of('QUITE')
vim.lsp.buf.code_action({ only = { 'quickfix' } })
wait(function() return #vim.diagnostic.get(0) == 1 end)
say('fix', offered)
say('mended', vim.api.nvim_buf_get_lines(0, 8, 9, false)[1])
vim.cmd('undo')
wait(function() return #vim.diagnostic.get(0) == 2 end)

-- typed: the faulty line is mended, and the diagnostics follow
vim.cmd([[%s/QUITE/QUIT/]])
wait(function() return #vim.diagnostic.get(0) == 1 end)
say('then', vim.diagnostic.get(0)[1].code)
place_of('again', line)
vim.lsp.buf.rename('once')
wait(function() return vim.fn.search('once', 'nw') > 0 end)
local renamed = 0
for _, text in ipairs(vim.api.nvim_buf_get_lines(0, 0, -1, false)) do
  renamed = renamed + select(2, text:gsub('once', ''))
end
say('renamed', renamed)
local edits = ask('formatting', { textDocument = document, options = { tabSize = 8, insertSpaces = true } })
vim.lsp.util.apply_text_edits(edits, 0, client.offset_encoding)
say('formatted', vim.api.nvim_buf_get_lines(0, 0, -1, false))
client.stop()
wait(function() return client.is_stopped() end)
say('stopped', true)
out:close()
vim.cmd('qa!')
