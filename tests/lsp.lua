-- What Neovim has of a script: run with `nvim --headless -S tests/lsp.lua a.job`. It prints a line for each thing that tests/lsp.py looks for.
local function out(...)
  io.stdout:write(table.concat({ ... }, ' '):gsub('\n', ' ') .. '\n')
end

local function clients()
  return vim.tbl_keys(vim.lsp.buf_get_clients(0))
end

local function ask(method, params)
  params.textDocument = vim.lsp.util.make_text_document_params()
  local answers = vim.lsp.buf_request_sync(0, 'textDocument/' .. method, params, 5000) or {}
  for _, answer in pairs(answers) do
    return answer.result
  end
end

local function codes()
  local found = {}
  for _, note in ipairs(vim.diagnostic.get(0)) do
    table.insert(found, note.code or (note.user_data and note.user_data.lsp and note.user_data.lsp.code) or '?')
  end
  return found
end

vim.api.nvim_create_autocmd('VimEnter', {
  callback = function()
    vim.cmd('filetype plugin on')
    vim.cmd('edit a.job')
    out('filetype', vim.bo.filetype)
    vim.wait(5000, function() return #clients() > 0 and #vim.diagnostic.get(0) > 0 end, 20)
    out('diagnostics', tostring(#vim.diagnostic.get(0)))
    local range = { start = { line = 0, character = 0 }, ['end'] = { line = 99, character = 0 } }
    out('hints', tostring(#(ask('inlayHint', { range = range }) or {})))
    local space = vim.api.nvim_create_namespace('mvsjob_hints')
    vim.wait(5000, function() return vim.lsp.inlay_hint ~= nil or #vim.api.nvim_buf_get_extmarks(0, space, 0, -1, {}) > 0 end, 20)
    out('shown', vim.lsp.inlay_hint and 'by Neovim' or tostring(#vim.api.nvim_buf_get_extmarks(0, space, 0, -1, {})))
    local hover = ask('hover', { position = { line = 1, character = 5 } })
    out('hover', hover and hover.contents.value or '')
    local found = ask('completion', { position = { line = 1, character = 4 } }) or {}
    out('completion', table.concat(vim.tbl_map(function(it) return it.label end, found.items or found), ' '))
    vim.api.nvim_buf_set_lines(0, 2, 3, true, { 'JOB GETMAIN RU,LV=8,A=Y' })
    vim.wait(5000, function() return not vim.tbl_contains(codes(), 'JS03') end, 20)
    out('mended', table.concat(codes(), ' '))
    vim.api.nvim_buf_set_lines(0, 2, 3, true, { 'JOB GETMAIN RU,LV=8,B=Y' })
    vim.wait(5000, function() return vim.tbl_contains(codes(), 'JS04') end, 20)
    out('broken', table.concat(codes(), ' '))
    vim.cmd('quitall!')
  end,
})
