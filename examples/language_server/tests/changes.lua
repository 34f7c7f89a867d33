-- Edits a file as a user does, with a language server attached, and compares what the server has with what the editor has:
-- the text, the indices of places, and the lines that end in blanks. Neovim runs it, from 0.7 on:
--
--     nvim --headless -u NONE -i NONE -n -c 'luafile changes.lua'
--
-- The environment variable JOB has what to do, as JSON: the server's program, the file, the encodings to offer, how
-- changes are sent, the number of edits, and of those of each small text, and the seed of the random numbers. What was found
-- is printed as JSON.
local job = vim.fn.json_decode(vim.env.JOB)
local random = math.random

-- No answer of the server takes so long, in milliseconds.
local PATIENCE = 60000

-- Chars of one to four bytes, chars that combine with the one before, and chars that some take for line breaks.
local PIECES = {
  "a", "b", "word", "x1", " ", "  ", "\t", "'", "\r", "é", "e\u{301}", "\u{301}", "せ", "世界", "🐸", "🐸\u{FE0F}", "👩\u{200D}🚀",
  "\u{10FFFF}", "\u{FFFD}", "\u{85}", "\u{2028}", "\u{2029}", "\u{B}", "\u{C}", "\u{FEFF}",
}

local found = { ends = 0, edits = 0, texts = 0, hovers = 0, wrong = {} }
local client

-- Tells what is wrong, in ASCII, since a part of a text may begin or end inside a char.
local function wrong(what, expected, answer)
  local told = string.format("%s: expected %s, answered %s", what, vim.inspect(expected), vim.inspect(answer))
  local escaped = told:gsub("[\128-\255]", function(byte)
    return string.format("\\x%02x", byte:byte())
  end)
  table.insert(found.wrong, escaped)
end

local function random_line()
  local pieces = {}
  for _ = 1, random(0, 12) do
    table.insert(pieces, PIECES[random(#PIECES)])
  end
  return table.concat(pieces)
end

local function random_lines(most)
  local lines = {}
  for _ = 1, random(most) do
    table.insert(lines, random_line())
  end
  return lines
end

-- A place in the buffer: a row from 1, and a column in bytes where a char begins or the line ends.
local function random_place()
  local row = random(vim.api.nvim_buf_line_count(0))
  local line = vim.fn.getline(row)
  return row, vim.str_byteindex(line, random(0, (vim.str_utfindex(line))))
end

local function line_break(fileformat)
  return fileformat == "dos" and "\r\n" or "\n"
end

-- The text of the buffer, as the editor writes it to a file and sends it to a server.
local function buffer_text()
  local ends = line_break(vim.bo.fileformat)
  return table.concat(vim.api.nvim_buf_get_lines(0, 0, -1, true), ends) .. (vim.bo.eol and ends or "")
end

local function ask(method, params)
  params.textDocument = vim.lsp.util.make_text_document_params()
  local answer, reason = client.request_sync(method, params, PATIENCE, vim.api.nvim_get_current_buf())
  if not answer or answer.err then
    wrong(method, "an answer", answer and answer.err or reason)
    return nil
  end
  return answer.result
end

-- Edits.

-- No ".", which after the paste would type it again, char by char.
local NORMAL = {
  "x", "3x", "X", "D", "dd", "2dd", "dw", "db", "d$", "J", "gJ", "~", "g~~", "gUU", "yyp", "yyP", "2yyp", "ddp", "ddP", "xp", ">>", "<<",
  "ra", "r🐸", "R🐸x", "i🐸", "a e\u{301}", "A  ", "Iせ", "owörd", "O\t🐸 ", "o", "cw👩\u{200D}🚀", "ccnew", "S", "s界", "5|D",
  "\22jlx", "\22jj$Aend ", "\22jI🐸", "Vjd", "vjd", "vjry", "Vj:m0\r", "yiwP", "ylp", "10ix",
}

local function normal()
  local row, column = random_place()
  vim.api.nvim_win_set_cursor(0, { row, column })
  vim.cmd("silent! normal! " .. NORMAL[random(#NORMAL)])
end

-- FIRST is for the first lines: each line of an edit that is undone costs the editor a look at all warnings.
local COMMANDS = {
  "FIRSTs/a/🐸b/g", "FIRSTs/🐸/a/", "FIRSTs/\\s\\+$//", "FIRSTs/x/\\r/", "2,4move $", "$move 0", "1,3copy $", "2,5sort", "2,3join", "3delete", "3,4>",
  "2put =''", "1,4normal! Az", "undojoin | 2s/$/🐸 /", "FIRSTretab", "2,4left 3",
}

local function command()
  local first = "1," .. math.min(100, vim.api.nvim_buf_line_count(0))
  local words = COMMANDS[random(#COMMANDS)]:gsub("FIRST", first)
  vim.cmd("silent! " .. words)
end

local function set_text()
  local row, column = random_place()
  local last = math.min(row + random(0, 2), vim.api.nvim_buf_line_count(0))
  local line = vim.fn.getline(last)
  local least = last == row and (vim.str_utfindex(line, column)) or 0
  local end_column = vim.str_byteindex(line, random(least, (vim.str_utfindex(line))))
  vim.api.nvim_buf_set_text(0, row - 1, column, last - 1, end_column, random_lines(3))
end

local function set_lines()
  local first = random(0, vim.api.nvim_buf_line_count(0) - 4)
  vim.api.nvim_buf_set_lines(0, first, first + random(0, 3), true, random_lines(4))
end

local function undo()
  vim.cmd("silent! undo")
end

local function redo()
  vim.cmd("silent! redo")
end

local EDITS = { normal, normal, normal, normal, command, set_text, set_text, set_lines, undo, undo, redo }

local function edit()
  if vim.api.nvim_buf_line_count(0) < 8 then
    vim.api.nvim_buf_set_lines(0, 2, 2, true, random_lines(12))
  end
  -- Undo takes back one edit and not all that the script did.
  vim.cmd("let &undolevels = &undolevels")
  EDITS[random(#EDITS)]()
  found.edits = found.edits + 1
end

-- A paste as a terminal sends it, of at least `size` bytes.
local function paste(size)
  local lines, len = {}, 0
  while len < size do
    local line = random_line() .. random_line() .. random_line()
    table.insert(lines, line)
    len = len + #line + 1
  end
  vim.api.nvim_win_set_cursor(0, { random_place() })
  vim.cmd("let &undolevels = &undolevels")
  vim.api.nvim_paste(table.concat(lines, "\n"), false, -1)
  found.edits = found.edits + 1
end

-- Comparisons.

local function compare_text()
  local answer = ask("pauskern/text", {})
  local text = buffer_text()
  if answer and answer.text ~= text then
    local at = 1
    while text:byte(at) == answer.text:byte(at) do
      at = at + 1
    end
    wrong("text after " .. found.edits .. " edits, at " .. at, text:sub(at, at + 40), answer.text:sub(at, at + 40))
  end
  found.texts = found.texts + 1
end

-- A column in bytes in the units of the encoding.
local function units_of(line, column)
  local chars, units = vim.str_utfindex(line, column)
  return ({ ["utf-8"] = column, ["utf-16"] = units, ["utf-32"] = chars })[client.offset_encoding]
end

-- A random place and the parameters that name it: by the editor for its cursor, or for any place.
local function place_and_position()
  local row, column = random_place()
  if random(2) == 1 then
    vim.api.nvim_win_set_cursor(0, { row, column })
    row, column = unpack(vim.api.nvim_win_get_cursor(0))
    return row, column, vim.lsp.util.make_position_params(0, client.offset_encoding).position
  end
  return row, column, { line = row - 1, character = units_of(vim.fn.getline(row), column) }
end

local function compare_hover(text)
  local row, column, position = place_and_position()
  local byte = vim.fn.line2byte(row) - 1 + column
  local chars, units = vim.str_utfindex(text:sub(1, byte))
  local expected = string.format("byte %d\nchar %d\nUTF-16 code unit %d\nline %d", byte, chars, units, row - 1)
  local answer = ask("textDocument/hover", { position = position })
  if answer and answer.contents.value ~= expected then
    wrong("hover at " .. vim.inspect(position), expected, answer.contents.value)
  end
  found.hovers = found.hovers + 1
end

-- The lines that end in blanks, as the editor has warnings; at most 200. The editor's own search does not serve: it
-- takes a blank with a combining char for a blank.
local function expected_warnings()
  local warnings = {}
  for row, line in ipairs(vim.api.nvim_buf_get_lines(0, 0, -1, true)) do
    -- A CR at the end of such a line is in a file of mixed breaks.
    local content = vim.bo.fileformat == "unix" and line:gsub("\r$", "") or line
    local first = content:find("[ \t]+$")
    if first and #warnings < 200 then
      table.insert(warnings, string.format("%d:%d-%d:%d", row - 1, first - 1, row - 1, #content))
    end
  end
  return warnings
end

-- The server sends warnings before it answers what was asked after the change.
local function compare_warnings()
  local warnings = {}
  for _, one in ipairs(vim.diagnostic.get(0)) do
    table.insert(warnings, string.format("%d:%d-%d:%d", one.lnum, one.col, one.end_lnum, one.end_col))
  end
  local expected = expected_warnings()
  if not vim.deep_equal(warnings, expected) then
    wrong("warnings after " .. found.edits .. " edits", expected, warnings)
  end
end

local function compare(hovers)
  compare_text()
  compare_warnings()
  local text = buffer_text()
  for _ = 1, hovers do
    compare_hover(text)
  end
end

-- The server takes what the file has. That may have a break at its end that the buffer has not.
local function save()
  vim.cmd("silent write")
  local answer, text = ask("pauskern/text", {}), buffer_text()
  local written = text .. (vim.bo.eol and "" or line_break(vim.bo.fileformat))
  if answer and answer.text ~= text and answer.text ~= written then
    wrong("text after a save", text, answer.text)
  end
end

-- The end of a text.

-- What changes the end, and what leaves nothing of the text.
local END_COMMANDS = {
  "normal! Goz", "undo", "normal! Gdd", "undo", "$d", "undo", "normal! ggJ", "undo", "normal! ggddp", "undo", "%sort", "undo",
  "normal! ggdG", "undo", "normal! ggdGiabc", "undo", "normal! GA!", "normal! ggdd", "normal! dd", "normal! dd", "normal! ix",
  "undo", "normal! Gyyp", "2,3d", "%sort!", "normal! Gddp", "normal! GddP", "call append('$', ['x ', ''])", "1,2move $",
  "$put =range(3)", "undo", "$copy $", "%join", "earlier 99f", "later 99f", "undo 0", "redo", "%d", "normal! Goz",
}

-- Neovim tells changes as if each line ended in a break, also where the file's last line has none, and deletes the one line
-- that a buffer always has. So the server may have a break more or less at the end.
local function compare_end(what)
  local answer, text = ask("pauskern/text", {}), buffer_text()
  local told, ends = answer and answer.text, line_break(vim.bo.fileformat)
  local has_other_end = told and (told == text .. ends or told .. ends == text) and not job.whole
  if told ~= text and not has_other_end then
    wrong("text after " .. what, text, told)
  end
  compare_warnings()
  found.ends = found.ends + 1
end

local function edit_end(what, change)
  vim.cmd("let &undolevels = &undolevels")
  change()
  compare_end(what)
end

-- Opens another file.
local function open_other(name, text)
  local file = assert(io.open(job.file .. name, "wb"))
  file:write(text)
  file:close()
  vim.cmd("edit " .. vim.fn.fnameescape(job.file .. name))
  vim.lsp.buf_attach_client(0, client.id)
end

-- Edits by commands, and then by random edits until some hundred of them have changed something, and takes all back.
local function edit_other(name, commands, one_edit)
  for _, words in ipairs(commands) do
    edit_end(words, function()
      vim.cmd("silent! " .. words)
    end)
  end
  local last = found.edits + job.ends
  while found.edits < last and #found.wrong == 0 do
    local before = vim.b.changedtick
    edit_end("random edit " .. found.edits .. " of " .. name, function()
      -- A command of lines that are not there does nothing.
      pcall(one_edit)
    end)
    found.edits = found.edits + (vim.b.changedtick ~= before and 1 or 0)
  end
  edit_end("undo to the beginning", function()
    vim.cmd("undo 0")
  end)
  save()
end

-- In a file with both breaks the editor takes a CR for a char of its line.
local MIXED = {
  "1s/\\r$//", "%s/\\r$//", "%s/[^\\r]$/&\\r/", "2,4move $", "1,3copy 0", "%sort", "2,5sort!", "2delete", "undo", "undo", "redo",
  "normal! 0x", "normal! 0ix", "normal! 0D", "normal! dd", "normal! yyp", "normal! ddp", "normal! ddP", "normal! O🐸 ", "normal! cc", "normal! ggdG",
  "normal! o🐸 ", "normal! $x", "normal! A\22\r", "normal! i\22\r", "normal! A \22\r", "normal! x",
}

local function edit_mixed()
  vim.api.nvim_win_set_cursor(0, { random(vim.api.nvim_buf_line_count(0)), 0 })
  vim.cmd("silent! " .. MIXED[random(#MIXED)])
end

local function try_ends()
  vim.o.hidden = true
  for name, text in ipairs({ "b \na\nc\t", "b \na\nc\n", "", "one", "\n\n" }) do
    open_other(name, (text:gsub("\n", line_break(found.fileformat))))
    edit_other(name, END_COMMANDS, function()
      EDITS[random(#EDITS)]()
    end)
  end
  open_other("6", "b\r\na\nc\r\n")
  edit_other("6", { "1s/\\r$//", "undo", "%s/\\r$//", "undo", "3normal! $x", "undo" }, edit_mixed)
  vim.cmd("edit " .. vim.fn.fnameescape(job.file))
end

-- The run.

local function capabilities()
  local all = vim.lsp.protocol.make_client_capabilities()
  all.general = job.offered and { positionEncodings = job.offered } or nil
  return all
end

local function start()
  local id = vim.lsp.start_client({
    cmd = { job.program },
    capabilities = capabilities(),
    offset_encoding = job.encoding,
    flags = { allow_incremental_sync = not job.whole, debounce_text_changes = job.debounce },
    on_exit = function(code)
      found.exit = code
    end,
  })
  vim.lsp.buf_attach_client(0, id)
  vim.wait(PATIENCE, function()
    client = vim.lsp.get_client_by_id(id)
    return client ~= nil and client.server_capabilities ~= nil and vim.lsp.buf_is_attached(0, id)
  end, 10)
  found.encoding = client.server_capabilities.positionEncoding
end

local function stop()
  client.stop()
  vim.wait(PATIENCE, function()
    return found.exit ~= nil
  end, 10)
end

local function paste_and_undo()
  paste(job.paste)
  compare(4)
  undo()
  compare(4)
  redo()
  compare(4)
end

local function run()
  vim.cmd("edit " .. vim.fn.fnameescape(job.file))
  found.fileformat = vim.bo.fileformat
  start()
  compare(4)
  for count = 1, job.edits do
    if count == job.paste_at then
      paste_and_undo()
    end
    edit()
    if #found.wrong == 0 and random(4) == 1 then
      compare(count < job.paste_at and 4 or 1)
    end
  end
  compare(20)
  try_ends()
  stop()
end

math.randomseed(job.seed)
local right, fault = xpcall(run, debug.traceback)
if not right then
  wrong("the run", "no fault", fault)
end
io.stdout:write(vim.fn.json_encode(found), "\n")
io.stdout:flush()
vim.cmd("qall!")
