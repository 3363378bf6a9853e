-- Starts mvsjob-lsp for each script of mvsjob. The file type is found by editors/vim.
if vim.g.loaded_mvsjob or vim.fn.executable('mvsjob-lsp') == 0 then
  return
end
vim.g.loaded_mvsjob = true

local published = 'textDocument/publishDiagnostics'
local space = vim.api.nvim_create_namespace('mvsjob_hints')

-- Shows hints at the ends of their lines.
local function show(buffer, hints)
  vim.api.nvim_buf_clear_namespace(buffer, space, 0, -1)
  for _, hint in ipairs(hints) do
    local text = { { ' ' .. hint.label, 'NonText' } }
    pcall(vim.api.nvim_buf_set_extmark, buffer, space, hint.position.line, 0, { virt_text = text, priority = 100 })
  end
end

-- Asks for the hints of a document after its diagnostics. Neovim itself does that from 0.10 on.
local function noted(err, result, context, config)
  vim.lsp.handlers[published](err, result, context, config)
  local client, buffer = vim.lsp.get_client_by_id(context.client_id), vim.uri_to_bufnr(result.uri)
  if vim.lsp.inlay_hint or not client or not vim.api.nvim_buf_is_loaded(buffer) then
    return
  end
  local last = { line = vim.api.nvim_buf_line_count(buffer), character = 0 }
  local params = { textDocument = { uri = result.uri }, range = { start = { line = 0, character = 0 }, ['end'] = last } }
  client.request('textDocument/inlayHint', params, function(_, hints)
    show(buffer, hints or {})
  end, buffer)
end

local function start()
  local config = { name = 'mvsjob-lsp', cmd = { 'mvsjob-lsp' }, root_dir = vim.fn.getcwd(), handlers = { [published] = noted } }
  if vim.lsp.start then
    vim.lsp.start(config)
    return
  end
  -- Before Neovim 0.8.
  if not vim.g.mvsjob_client then
    vim.g.mvsjob_client = vim.lsp.start_client(config)
  end
  vim.lsp.buf_attach_client(0, vim.g.mvsjob_client)
end

vim.api.nvim_create_autocmd('FileType', { pattern = 'mvsjob', callback = start })

-- Hints after the statements, where Neovim can show them itself (0.10 and later).
if vim.lsp.inlay_hint and vim.fn.exists('##LspAttach') == 1 then
  vim.api.nvim_create_autocmd('LspAttach', {
    callback = function(event)
      if vim.bo[event.buf].filetype == 'mvsjob' then
        vim.lsp.inlay_hint.enable(true, { bufnr = event.buf })
      end
    end,
  })
end
