vim.api.nvim_create_autocmd({"BufRead", "BufNewFile"}, {
  pattern = {"*.script", "*.lines", "*.stack", "*/layout*/*.xml"},
  callback = function(event)
    -- Neovim 0.7 has no vim.lsp.start
    local start = vim.lsp.start or function(it) vim.lsp.buf_attach_client(event.buf, vim.lsp.start_client(it)) end
    start({name = "vindaesk", cmd = {"vindaesk-language"}, root_dir = vim.fn.getcwd()})
  end,
})
