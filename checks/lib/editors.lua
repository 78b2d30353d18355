-- Uses Neovim's language client on the lock example, and on a program with errors. Prints each result as a line on standard output.
-- checks/editors runs this script with the configuration from editors/README.md.
local function print_line(...) io.stdout:write(string.format(...), "\n") io.stdout:flush() end
local function quit() vim.cmd("qa!") end
-- The time in milliseconds to wait for each result.
local timeout = 60000

local function client_of(buffer)
    for id in pairs(vim.lsp.buf_get_clients(buffer)) do return id end
end

local function open_file(name)
    vim.cmd("edit " .. name)
    local buffer = vim.api.nvim_get_current_buf()
    vim.wait(timeout, function()
        local id = client_of(buffer)
        return id ~= nil and vim.lsp.get_client_by_id(id).initialized == true
    end, 5)
    return buffer
end

local function find_text(pattern)
    for number, line in ipairs(vim.api.nvim_buf_get_lines(0, 0, -1, false)) do
        local column = line:find(pattern, 1, true)
        if column then return number, column - 1 end
    end
end

local function send_request(method, more)
    local params = vim.tbl_extend("force", vim.lsp.util.make_position_params(), more or {})
    local answers = vim.lsp.buf_request_sync(0, method, params, timeout)
    local _, answer = next(answers or {})
    if answer == nil then return nil end
    return answer.result, answer.error or answer.err
end

local function move_cursor_to(pattern, more)
    local line, column = find_text(pattern)
    vim.api.nvim_win_set_cursor(0, { line, column + (more or 0) })
end

local function print_diagnostics(buffer, count)
    vim.wait(timeout, function() return #vim.diagnostic.get(buffer) == count end, 5)
    local found = vim.diagnostic.get(buffer)
    table.sort(found, function(first, second) return first.lnum < second.lnum end)
    for _, diagnostic in ipairs(found) do
        print_line("error %d:%d-%d %s", diagnostic.lnum + 1, diagnostic.col, diagnostic.end_col, diagnostic.message)
    end
    if #found == 0 then print_line("no errors") end
end

local function main()
    -- The unchanged program of the lock: diagnostics, hover, definition, references, completion, symbols, renaming.
    local lock = open_file("lock.asm")
    move_cursor_to("JCN zero, anew", 11)
    print_diagnostics(lock, 0)
    print_line("hover %s", ((send_request("textDocument/hover")).contents.value:gsub("\n+", " | ")))
    move_cursor_to("JCN zero, anew", 1)
    print_line("hover %s", ((send_request("textDocument/hover")).contents.value:gsub("\n+", " | ")))
    move_cursor_to("JCN zero, anew", 11)
    vim.lsp.buf.definition()
    vim.wait(timeout, function() return vim.api.nvim_win_get_cursor(0)[1] ~= find_text("JCN zero, anew") end, 5)
    print_line("definition %s", vim.api.nvim_get_current_line():sub(1, 13))
    move_cursor_to("JCN zero, anew", 11)
    local references = send_request("textDocument/references", { context = { includeDeclaration = true } })
    for _, reference in ipairs(references) do print_line("reference %d:%d", reference.range.start.line + 1, reference.range.start.character) end
    move_cursor_to("JCN zero, anew", 2)
    for _, each in ipairs(send_request("textDocument/completion")) do print_line("completion %s", each.label) end
    local symbols = send_request("textDocument/documentSymbol")
    print_line("symbols %d, the first %s", #symbols, symbols[1].name)
    move_cursor_to("JCN zero, anew", 11)
    vim.lsp.buf.rename("begin_anew")
    vim.wait(timeout, function() return find_text("JCN zero, begin_anew") ~= nil and find_text("begin_anew:") == 30 end, 5)
    print_line("renamed %s, %s", find_text("begin_anew:") and "its definition" or "not its definition", find_text("anew:") == 30 and "alone" or "more")
    print_diagnostics(lock, 0)

    -- Formatting, call hierarchy, code lenses, signature help, folding, inlay hints, workspace symbols.
    local text = vim.api.nvim_buf_get_lines(lock, 0, -1, false)
    local line = find_text("FIM P5, 0")
    vim.api.nvim_buf_set_lines(lock, line - 1, line, false, { "begin_anew:FIM P5,0;no digit yet" })
    if vim.lsp.buf.format then vim.lsp.buf.format({ timeout_ms = timeout }) else vim.lsp.buf.formatting_sync(nil, timeout) end
    print_line("layout %s", vim.api.nvim_buf_get_lines(lock, line - 1, line, false)[1])
    print_line("layout %s", vim.api.nvim_buf_get_lines(lock, 18, 19, false)[1])
    vim.api.nvim_buf_set_lines(lock, 0, -1, false, text)
    move_cursor_to("JMS show", 5)
    local item = send_request("textDocument/prepareCallHierarchy")[1]
    for _, each in ipairs(send_request("callHierarchy/incomingCalls", { item = item })) do print_line("called by %s, %d times", each.from.name, #each.fromRanges) end
    for _, each in ipairs(send_request("textDocument/codeLens")) do
        if each.range.start.line + 1 == find_text("show:") then print_line("lens %s", each.command.title) end
    end
    move_cursor_to("JCN zero, begin_anew", 10)
    local help = send_request("textDocument/signatureHelp")
    print_line("signature %s, operand %d", help.signatures[1].label, help.activeParameter)
    local folds = send_request("textDocument/foldingRange")
    print_line("folds %d, the first from %d to %d", #folds, folds[1].startLine, folds[1].endLine)
    local hints = send_request("textDocument/inlayHint", { range = { start = { line = 29, character = 0 }, ["end"] = { line = 29, character = 0 } } })
    for _, hint in ipairs(hints) do print_line("hint %s", hint.label) end
    for _, each in ipairs(send_request("workspace/symbol", { query = "begin_a" })) do print_line("in the workspace %s %s", each.containerName, each.name) end

    -- The texts of tests and of properties.
    local tests = open_file("lock.test")
    print_diagnostics(tests, 0)
    vim.api.nvim_buf_set_lines(tests, -1, -1, false, { "test a fault", "  press Q" })
    print_diagnostics(tests, 1)
    move_cursor_to("press Q", 6)
    for _, each in ipairs(send_request("textDocument/completion")) do if each.label == "#" then print_line("completion %s", each.label) end end
    local properties = open_file("lock.props")
    print_diagnostics(properties, 0)

    -- A program with the extension .4004, which only the bench uses.
    local own = open_file("own.4004")
    print_diagnostics(own, 3)

    -- A program with three errors, one of which a code action corrects.
    local wrong = open_file("wrong.asm")
    print_diagnostics(wrong, 3)
    move_cursor_to("JMP entre")
    local range = { start = { line = find_text("JMP entre") - 1, character = 8 } }
    range["end"] = range.start
    local actions = send_request("textDocument/codeAction", { range = range, context = { diagnostics = {} } })
    for _, action in ipairs(actions) do
        print_line("fix %s", action.title)
        vim.lsp.util.apply_workspace_edit(action.edit, "utf-16")
    end
    vim.wait(timeout, function() return #vim.diagnostic.get(wrong) == 2 end, 5)
    print_diagnostics(wrong, 2)

    -- The board: the definition of a lamp's line is its chip. When the RAM chip is moved to another bank, the first lamp's line is missing.
    local board = open_file("board.toml")
    print_diagnostics(board, 0)
    move_cursor_to("ram0.0.2")
    print_line("hover %s", (send_request("textDocument/hover")).contents.value)
    local place = send_request("textDocument/definition")
    print_line("definition %s", vim.api.nvim_buf_get_lines(0, place.range.start.line, place.range.start.line + 1, false)[1])
    local line = find_text("bank = 0")
    vim.api.nvim_buf_set_lines(0, line - 1, line, false, { "bank = 1" })
    print_diagnostics(board, 1)
    print_line("end")
end

local succeeded, message = pcall(main)
if not succeeded then print_line("the check failed: %s", message) end
quit()
