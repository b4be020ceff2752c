-- Lays each table of a document out on its lowest page of text: a filter of pandoc.
--
--   pandoc -t plain --columns 60 --lua-filter tablelayout.lua report.html
--
-- docs/PANDOC.md says what it does. Each table becomes a file of the subset of HTML that the program `tablelayout`
-- reads. Those of a whole document go to one run of the program by a pipe, and their pages come back by another. No
-- file is written. Nothing here is proved.
--
-- So the document is gone through before there is any page: what goes through a part of it returns a function that
-- gives this part with its pages, once they are there.
-- luacheck: std lua53, read globals pandoc FORMAT PANDOC_VERSION PANDOC_SCRIPT_FILE PANDOC_WRITER_OPTIONS

PANDOC_VERSION:must_be_at_least("2.17")

local MOST_COLUMNS = 500
local MOST_SPAN = 1000
local STATUS_LOWEST, STATUS_BOUNDED, STATUS_NARROW, STATUS_MEMORY = 0, 3, 4, 9
local REPLACEMENT = "\u{FFFD}"
-- A page is text where pandoc writes text itself, and a block of code where it writes markdown.
local TEXT_FORMATS = { plain = true, ansi = true }
local MARKDOWN_FORMATS = { commonmark = true, commonmark_x = true, gfm = true }
local STYLES = { "plain", "compact", "rule", "apart", "frame", "grid", "box" }
local USUAL_STYLE = "rule"
local BREAKS = { "words", "any", "fit" }
-- How a cell asks the program for a side.
local SIDES = { AlignLeft = "left", AlignRight = "right", AlignCenter = "center" }

local is_text = TEXT_FORMATS[FORMAT]
local is_markdown = MARKDOWN_FORMATS[FORMAT] or FORMAT:match("^markdown") ~= nil

-- The noncharacters above U+FDCF but for U+FFFE and U+FFFF. A text may have some of them, but hardly all.
local NONCHARACTERS = {}
for code = 0xFDD0, 0xFDEF do
    table.insert(NONCHARACTERS, utf8.char(code))
end
for plane = 0x10000, 0x100000, 0x10000 do
    table.insert(NONCHARACTERS, utf8.char(plane + 0xFFFE))
    table.insert(NONCHARACTERS, utf8.char(plane + 0xFFFF))
end
-- Characters that no text of a table has. The first stands for a space at which no line breaks, the second for the end
-- of a part of a cell.
local blank, part_end

-- Writing as pandoc does

-- What the writer for plain text makes of blocks, each paragraph on one line.
local function text_of(blocks)
    local format = "plain"
    for _, extension in ipairs(PANDOC_WRITER_OPTIONS.extensions) do
        if extension == "gutenberg" then
            format = "plain+gutenberg"
        end
    end
    return pandoc.write(pandoc.Pandoc(blocks), format, { wrap_text = "none" })
end

-- How many columns the writer puts in front of what stands in a block. `around` makes the block around a text.
local function indentation(around)
    local written = pandoc.write(pandoc.Pandoc({ around(REPLACEMENT) }), FORMAT, { wrap_text = "none" })
    local before = written:match("([^\n]*)" .. REPLACEMENT) or ""
    -- Colours take no column.
    return utf8.len((before:gsub("\27%[[%d;]*m", "")))
end

local function paragraph(text)
    return pandoc.Plain({ pandoc.Str(text) })
end

-- The items of a list alone, each as a list of its own, so that it has its own marker.
local function item_lists(list)
    local lists = pandoc.List({})
    for i, item in ipairs(list.content) do
        local alone = list:clone()
        alone.content = { item }
        if list.t == "OrderedList" then
            alone.start = list.start + i - 1
        end
        lists:insert(alone)
    end
    return lists
end

local function with_content(block, content)
    local changed = block:clone()
    changed.content = content
    return changed
end

-- The text of cells

-- A space in code stays where it is, and lines break before a word alone.
local function keep_spaces(code)
    code = code:gsub("\t", "    "):gsub(" +", function(spaces)
        return blank:rep(#spaces - 1) .. " "
    end)
    return code
end

local function lines_of(text)
    return (text .. "\n"):gmatch("([^\n]*)\n")
end

local function code_lines(text)
    local inlines = pandoc.List({})
    for line in lines_of(text) do
        local indent, rest = line:match("^( *)(.-) *$")
        local kept = blank:rep(#indent) .. keep_spaces(rest)
        inlines:extend({ pandoc.Str(kept == "" and blank or kept), pandoc.LineBreak() })
    end
    inlines:remove()
    return inlines
end

-- In a cell a rule is short, as the page is narrow.
local FOR_A_CELL = {
    HorizontalRule = function()
        return paragraph("-----")
    end,
    CodeBlock = function(block)
        return pandoc.Para(code_lines(block.text))
    end,
    Code = function(code)
        code.text = keep_spaces(code.text)
        return code
    end,
}

-- The command reads no control characters but white space.
local function escape(text)
    text = text:gsub("[\0-\8\11\14-\31\127]", REPLACEMENT):gsub("\xC2[\x80-\x9F]", REPLACEMENT)
    return (text:gsub("[&<>]", { ["&"] = "&amp;", ["<"] = "&lt;", [">"] = "&gt;" }))
end

-- The HTML of a text: its paragraphs, and in them its lines, with their indentation.
local function html_of_text(text)
    local paragraphs, lines = {}, {}
    local function end_paragraph()
        if #lines > 0 then
            paragraphs[#paragraphs + 1] = "<p>" .. table.concat(lines, "<br>") .. "</p>"
        end
        lines = {}
    end
    for line in lines_of(text) do
        local indent, rest = line:match("^( *)(.-) *$")
        if rest == "" then
            end_paragraph()
        else
            lines[#lines + 1] = blank:rep(#indent) .. escape(rest)
        end
    end
    end_paragraph()
    return table.concat(paragraphs)
end

-- All parts of the document's cells that have no table in them, each as its blocks.
local parts

-- Adds the place of a part, which stands for its HTML until all parts are written.
local function add_text(out, blocks)
    parts:insert(blocks)
    out:insert(#parts)
end

-- Two characters that a text does not have.
local function unused_characters(text)
    local unused = {}
    for _, character in ipairs(NONCHARACTERS) do
        if #unused < 2 and not text:find(character, 1, true) then
            table.insert(unused, character)
        end
    end
    assert(#unused == 2, "the tables have all noncharacters")
    return unused[1], unused[2]
end

-- The HTML of each part. The writer writes all at once, which takes a fraction of the time.
local function write_parts()
    local blocks, ends = pandoc.Blocks({}), {}
    for _, part in ipairs(parts) do
        blocks:extend(part)
        blocks:insert(pandoc.HorizontalRule())
        ends[#ends + 1] = #blocks
    end
    blank, part_end = unused_characters(pandoc.write(pandoc.Pandoc(blocks), "json"))
    local end_block = paragraph(part_end)
    for _, place in ipairs(ends) do
        blocks[place] = end_block
    end
    local text, at, written = text_of(blocks:walk(FOR_A_CELL)), 1, {}
    for i = 1, #parts do
        local first, last = text:find(part_end, at, true)
        written[i] = html_of_text(text:sub(at, first - 1))
        at = last + 1
    end
    return written
end

-- Tables

local function holds_table(block)
    local found = false
    pandoc.Blocks({ block }):walk({
        Table = function()
            found = true
        end,
    })
    return found
end

local add_flow, add_table

-- How each block that holds a table is taken apart.
local ADD_AROUND = {
    Table = function(out, block)
        add_table(out, block)
    end,
    Div = function(out, block)
        add_flow(out, block.content)
    end,
    BlockQuote = function(out, block)
        add_flow(out, block.content)
    end,
    Figure = function(out, block)
        add_flow(out, block.content)
        add_flow(out, block.caption.long)
    end,
    DefinitionList = function(out, block)
        for _, item in ipairs(block.content) do
            add_flow(out, pandoc.Blocks({ pandoc.Plain(item[1]) }))
            for _, definition in ipairs(item[2]) do
                add_flow(out, definition)
            end
        end
    end,
}

-- An item's marker stands before the blocks up to its first table.
local function add_list(out, list)
    for _, alone in ipairs(item_lists(list)) do
        local before, after = pandoc.Blocks({}), pandoc.Blocks({})
        for _, block in ipairs(alone.content[1]) do
            (#after == 0 and not holds_table(block) and before or after):insert(block)
        end
        add_text(out, pandoc.Blocks({ with_content(alone, { before }) }))
        add_flow(out, after)
    end
end
ADD_AROUND.BulletList = add_list
ADD_AROUND.OrderedList = add_list

-- Adds what stands in a cell: texts, and tables between them.
function add_flow(out, blocks)
    local run
    local function end_run()
        if run then
            add_text(out, run)
        end
        run = nil
    end
    for _, block in ipairs(blocks) do
        local add = ADD_AROUND[block.t]
        if add and holds_table(block) then
            end_run()
            add(out, block)
        else
            run = run or pandoc.Blocks({})
            run:insert(block)
        end
    end
    end_run()
end

-- On which side a cell stands: its own, or else that of the column in which it begins. Where pandoc knows neither, it
-- is the left.
local function side_of(cell, spec)
    return SIDES[cell.alignment] or spec and SIDES[spec[1]] or "left"
end

-- Adds the rows of a section of a table of these columns. As in pandoc's tables a cell covers only places that are
-- free, and ends with the section.
local function add_rows(out, rows, header_columns, colspecs)
    -- For each column in how many more rows the cell above covers it.
    local covered = {}
    for number, row in ipairs(rows) do
        out:insert("<tr>")
        local column = 1
        for _, cell in ipairs(row.cells) do
            while (covered[column] or 0) > 0 do
                column = column + 1
            end
            local width, height = 1, math.min(cell.row_span, #rows - number + 1)
            while width < math.min(cell.col_span, MOST_SPAN) and (covered[column + width] or 0) == 0 do
                width = width + 1
            end
            local tag, side = column <= header_columns and "th" or "td", side_of(cell, colspecs[column])
            out:insert(string.format("<%s colspan=%d rowspan=%d align=%s>", tag, width, height, side))
            add_flow(out, cell.contents)
            out:insert("</" .. tag .. ">")
            for i = column, column + width - 1 do
                covered[i] = height
            end
            column = column + width
        end
        out:insert("</tr>\n")
        for i, rows_below in pairs(covered) do
            covered[i] = math.max(rows_below - 1, 0)
        end
    end
end

local function add_section(out, tag, rows, header_columns, colspecs)
    if #rows > 0 then
        out:insert("<" .. tag .. ">\n")
        add_rows(out, rows, header_columns, colspecs)
        out:insert("</" .. tag .. ">\n")
    end
end

-- Whether a row has a cell with something in it.
local function has_text(row)
    return pandoc.List(row.cells):find_if(function(cell)
        return #cell.contents > 0
    end)
end

-- Adds a table.
function add_table(out, block)
    local colspecs = block.colspecs
    -- Some readers give a table without a head a row of nothing.
    local has_head = pandoc.List(block.head.rows):find_if(has_text)
    out:insert("<table>\n")
    if #block.caption.long > 0 then
        out:insert("<caption>")
        add_flow(out, block.caption.long)
        out:insert("</caption>\n")
    end
    add_section(out, "thead", has_head and block.head.rows or {}, math.huge, colspecs)
    for _, body in ipairs(block.bodies) do
        add_section(out, "tbody", body.head, math.huge, colspecs)
        add_section(out, "tbody", body.body, body.row_head_columns, colspecs)
    end
    add_section(out, "tfoot", block.foot.rows, 0, colspecs)
    out:insert("</table>\n")
end

-- The HTML of a table that was added: texts, and places of parts.
local function html_of(out, written)
    return table.concat(out:map(function(it)
        return written[it] or it
    end))
end

-- The program

local settings
-- All tables of the document, each with its number, the width that is left for it, and what is known of it by then.
local tables

local function is_file(name)
    local file = io.open(name)
    -- Of a folder nothing can be read.
    local is_read = file and file:read(0)
    if file then
        file:close()
    end
    return is_read
end

-- Where the program is, from the folder of this file: in a checkout, and installed. Where it is not built, the launcher
-- of the checkout builds it.
local PLACES = {
    "/../../crates/tablelayout/out/tablelayout",
    "/../../../libexec/tablelayout/tablelayout",
    "/../../tablelayout",
}

-- The program that the environment names, the one beside this file, or the one in the path.
local function find_program()
    local given = os.getenv("TABLELAYOUT")
    if given and given ~= "" then
        return given
    end
    local here = PANDOC_SCRIPT_FILE:match("^(.*)/") or "."
    for _, place in ipairs(PLACES) do
        if is_file(here .. place) then
            return here .. place
        end
    end
    return "tablelayout"
end

local function complain(text)
    io.stderr:write("tablelayout: " .. text .. "\n")
end

-- Sets the status, the message and the page of a table to those of the answer at a place of what the program printed.
-- Returns the place after it, or nothing where there is no answer.
local function read_answer(it, printed, at)
    local status, size, message, first = printed:match("^(%d+) (%d+) 0 0 0\n([^\n]*)\n()", at)
    if not status or first + size - 1 > #printed then
        return nil
    end
    it.status, it.message, it.page = tonumber(status), message, printed:sub(first, first + size - 1)
    return first + tonumber(size)
end

-- How many of some tables are answered, one after the other, by what the program printed.
local function read_answers(asked, printed)
    local at = 1
    for i, it in ipairs(asked) do
        at = read_answer(it, printed, at)
        if not at then
            return i - 1
        end
    end
    return #asked
end

-- Asks one run of the program for the pages of some tables.
local function lay_out(asked)
    if #asked == 0 then
        return
    end
    local requests = asked:map(function(it)
        local style = settings.style or USUAL_STYLE
        local words = { "lay", it.width, "--style", style, "--break", settings.breaking, "--align", "cells", #it.html }
        return table.concat(words, " ") .. "\n" .. it.html
    end)
    local is_done, result = pcall(pandoc.pipe, settings.program, { "batch" }, table.concat(requests))
    -- What it printed, if it ran at all.
    local printed = is_done and result or type(result) == "table" and result.output
    local missing = #asked - read_answers(asked, printed or "")
    if missing > 0 then
        local reason = printed and "ended before it had answered" or "could not be run"
        local form = missing == 1 and "a table stays as pandoc writes it" or "%d tables stay as pandoc writes them"
        complain(form:format(missing) .. ": " .. settings.program .. " " .. reason)
    end
end

-- Asks for the pages of all tables.
local function lay_out_all()
    local written = write_parts()
    for _, it in ipairs(tables) do
        it.html = html_of(it.out, written)
    end
    lay_out(tables:filter(function(it)
        return it.width >= 1
    end))
end

-- The first words of a table, to name it by.
local function first_words(html)
    local words = html:gsub("<[^>]*>", " "):gsub(blank, " "):gsub("%s+", " "):gsub("^ ", ""):gsub(" $", "")
    words = words:gsub("&lt;", "<"):gsub("&gt;", ">"):gsub("&amp;", "&")
    local past = utf8.offset(words, 41)
    return past and words:sub(1, past - 1) .. ".." or words
end

local function say(it, text)
    complain(string.format("table %d (%s): %s", it.number, first_words(it.html), text))
end

-- Why a table has no page.
local function reason_of(it)
    if it.width < 1 then
        return "no column is left for it"
    elseif it.status == STATUS_NARROW then
        return "no layout fits " .. it.width .. " columns, and the least width is " .. it.message:match("least (%d+)")
    elseif it.status == STATUS_MEMORY then
        return "out of memory"
    end
    return it.message
end

-- The page of a table, or nothing if the table has none. That the program gave no answer was said of all such tables.
local function page_of(it)
    if it.status == STATUS_BOUNDED then
        say(it, "its page may not be the lowest: " .. it.message)
    elseif it.status ~= STATUS_LOWEST then
        if it.status or it.width < 1 then
            say(it, "it stays as pandoc writes it: " .. reason_of(it))
        end
        return nil
    end
    return (it.page:gsub(blank, " "):gsub(" +\n", "\n"):gsub("\n$", ""))
end

-- What pandoc writes of a table

-- The rows of a table, of all its sections.
local function rows_of(block)
    local rows = pandoc.List({})
    rows:extend(block.head.rows)
    for _, body in ipairs(block.bodies) do
        rows:extend(body.head)
        rows:extend(body.body)
    end
    rows:extend(block.foot.rows)
    return rows
end

-- Whether no cell covers more than one place, and none has a table. Others pandoc may write without their spans, or not
-- at all.
local function is_simple(block)
    for _, row in ipairs(rows_of(block)) do
        for _, cell in ipairs(row.cells) do
            if cell.row_span ~= 1 or cell.col_span ~= 1 or pandoc.List(cell.contents):find_if(holds_table) then
                return false
            end
        end
    end
    return true
end

-- At most how many columns a line takes: where this pandoc does not measure text, a character that is not of ASCII may
-- take two.
local function width_of(line)
    if pandoc.layout and pandoc.layout.real_length then
        return pandoc.layout.real_length(line)
    end
    return utf8.len(line) + utf8.len((line:gsub("[\0-\127]", "")))
end

local function letters_in(text)
    return #text:gsub("[^%w\x80-\xFF]", "")
end

-- Whether pandoc itself writes a table within the width, no higher than its page, and with as much text.
local function is_as_low(block, width, page)
    if not is_simple(block) then
        return false
    end
    local own = pandoc.write(pandoc.Pandoc({ block }), FORMAT, { columns = width })
    own = own:gsub("\27%[[%d;]*m", ""):gsub("\n+$", "")
    local height = 0
    for line in lines_of(own) do
        height = height + 1
        if width_of(line) > width then
            return false
        end
    end
    local _, breaks = page:gsub("\n", "")
    return height <= breaks + 1 and letters_in(own) >= letters_in(page)
end

-- Asks for the page of a table. It is there once all are.
local function ask_for(block, width)
    local it = { number = #tables + 1, width = width, out = pandoc.List({}) }
    add_table(it.out, block)
    tables:insert(it)
    return it
end

-- Documents

local function note_blocks(number, blocks)
    local marker = pandoc.Str("[" .. number .. "]")
    local first = blocks[1]
    if first and (first.t == "Para" or first.t == "Plain") then
        local marked = first:clone()
        marked.content = pandoc.List({ marker, pandoc.Space() }) .. first.content
        return pandoc.List({ marked }) .. pandoc.List({ table.unpack(blocks, 2) })
    end
    return pandoc.List({ pandoc.Plain({ marker }) }) .. blocks
end

-- Replaces the notes of blocks by their numbers in brackets, and adds what they say to `notes`.
local function number_notes(blocks, notes)
    return blocks:walk({
        Note = function(note)
            notes.count = notes.count + 1
            notes.blocks:extend(note_blocks(notes.count, note.content))
            return pandoc.Str("[" .. notes.count .. "]")
        end,
    })
end

local function no_notes()
    return { count = 0, blocks = pandoc.List({}) }
end

-- The tables that a document of markdown has as HTML, from the start tag to the end tag, read as tables.
local function read_raw_tables(blocks)
    local read, open, depth = pandoc.Blocks({}), nil, 0
    for _, block in ipairs(blocks) do
        local raw = block.t == "RawBlock" and block.format == "html" and block.text:lower() or ""
        if not open and raw:match("^%s*<table[%s>]") then
            open, depth = pandoc.Blocks({}), 0
        end
        (open or read):insert(block)
        if open then
            local _, starts = raw:gsub("<table[%s>]", "")
            local _, ends = raw:gsub("</table[%s>]", "")
            depth = depth + starts - ends
            if depth <= 0 then
                local found = pandoc.read(pandoc.write(pandoc.Pandoc(open), "html"), "html").blocks
                read:extend(found[1] and found[1].t == "Table" and found or open)
                open = nil
            end
        end
    end
    read:extend(open or {})
    return read
end

-- Goes through blocks, asks for the pages of their tables, and returns a function that gives the blocks with the pages.
local lay_out_blocks
-- In markdown the notes of all tables are counted together.
local table_notes

-- A page as text. Where pandoc writes no raw text, it is a paragraph of one word.
local function text_block(page)
    return FORMAT == "plain" and pandoc.RawBlock("plain", page) or pandoc.Para({ pandoc.Str(page) })
end

-- Whether a table stays as pandoc writes it although it has a page, which is no better. Who asks for a style gets it.
local function is_kept(block, width, page)
    return not settings.style and is_as_low(block, width, page)
end

local function lay_out_table(block, width)
    if is_text then
        local asked = ask_for(block, width)
        return function()
            local page = page_of(asked)
            return { page and not is_kept(block, width, page) and text_block(page) or block }
        end
    end
    local notes = { count = table_notes.count, blocks = pandoc.List({}) }
    local numbered = number_notes(pandoc.Blocks({ block }), notes)[1]
    local asked = ask_for(numbered, width - indentation(pandoc.CodeBlock))
    table_notes.count = notes.count
    local below = lay_out_blocks(pandoc.Blocks(notes.blocks), width)
    return function()
        local page = page_of(asked)
        return page and pandoc.List({ pandoc.CodeBlock(page) }) .. below() or { block }
    end
end

-- Calls each function of a list.
local function all_of(functions)
    return functions:map(function(it)
        return it()
    end)
end

local function lay_out_list(list, width)
    local items = pandoc.List({})
    for _, alone in ipairs(item_lists(list)) do
        local indent = indentation(function(text)
            return with_content(alone, { { paragraph(text) } })
        end)
        items:insert(lay_out_blocks(alone.content[1], width - indent))
    end
    return function()
        return { with_content(list, all_of(items)) }
    end
end

local function lay_out_content(block, width)
    local content = lay_out_blocks(block.content, width)
    return function()
        return { with_content(block, content()) }
    end
end

local function lay_out_quotation(block, width)
    return lay_out_content(block, width - indentation(function(text)
        return pandoc.BlockQuote({ paragraph(text) })
    end))
end

local function lay_out_definitions(list, width)
    local indent = indentation(function(text)
        return pandoc.DefinitionList({ { { pandoc.Str("a") }, { { paragraph(text) } } } })
    end)
    local items = list.content:map(function(item)
        return pandoc.List(item[2]):map(function(definition)
            return lay_out_blocks(definition, width - indent)
        end)
    end)
    return function()
        local content = pandoc.List({})
        for i, item in ipairs(list.content) do
            content:insert({ item[1], all_of(items[i]) })
        end
        return { with_content(list, content) }
    end
end

-- The notes in text are those of markdown, which writes them below, indented.
local function lay_out_notes(block, width)
    local notes = pandoc.List({})
    block:walk({
        Note = function(note)
            local indent = indentation(function(text)
                return pandoc.Para({ pandoc.Note({ pandoc.Para({ pandoc.Str("a") }), paragraph(text) }) })
            end)
            notes:insert(lay_out_blocks(note.content, width - indent))
        end,
    })
    return function()
        local place = 0
        return { block:walk({
            Note = function()
                place = place + 1
                return pandoc.Note(notes[place]())
            end,
        }) }
    end
end

-- A block without a table in it. In text the notes stand at the end by now.
local function lay_out_other(block, width)
    if is_markdown then
        return lay_out_notes(block, width)
    end
    return function()
        return { block }
    end
end

-- How each block that may hold a table is laid out in a width.
local LAY_OUT_AROUND = {
    Table = lay_out_table,
    BulletList = lay_out_list,
    OrderedList = lay_out_list,
    Div = lay_out_content,
    Figure = lay_out_content,
    BlockQuote = lay_out_quotation,
    DefinitionList = lay_out_definitions,
}

-- Between two of these pandoc writes no empty line.
local JOINS = { Plain = true, RawBlock = true }

-- Adds blocks, with an empty line where pandoc writes none beside a page.
local function add_blocks(laid, blocks)
    for _, block in ipairs(blocks) do
        local before = laid[#laid]
        local is_tight = before and JOINS[before.t] and JOINS[block.t]
        if is_tight and (before.t == "RawBlock" or block.t == "RawBlock") then
            laid:insert(pandoc.RawBlock(FORMAT, ""))
        end
        laid:insert(block)
    end
end

function lay_out_blocks(blocks, width)
    local laid = pandoc.List({})
    for _, block in ipairs(read_raw_tables(blocks)) do
        local lay = LAY_OUT_AROUND[block.t] or lay_out_other
        laid:insert(lay(block, width))
    end
    return function()
        local with_pages = pandoc.Blocks({})
        for _, it in ipairs(all_of(laid)) do
            add_blocks(with_pages, it)
        end
        return with_pages
    end
end

-- What the document's metadata say, or nothing.
local function setting(meta, name)
    local value = meta["tablelayout-" .. name]
    return value ~= nil and pandoc.utils.stringify(value) or nil
end

local function refuse_setting(name, text, wanted)
    error(string.format("tablelayout-%s is %s, and has to be %s", name, text, wanted))
end

-- A number of columns above 0, as the program spells it, or nothing.
local function columns_of(text)
    local columns = text:match("^[1-9]%d?%d?$") and tonumber(text)
    return columns and columns <= MOST_COLUMNS and columns or nil
end

-- One of the values, or nothing.
local function choice_setting(meta, name, values)
    local text = setting(meta, name)
    if text and not pandoc.List(values):includes(text) then
        refuse_setting(name, text, "one of " .. table.concat(values, ", "))
    end
    return text
end

-- How words break, as the program spells it: without the setting as few as can be.
local function break_setting(meta)
    local text = setting(meta, "break") or "fit"
    if text ~= "0" and not columns_of(text) and not pandoc.List(BREAKS):includes(text) then
        refuse_setting("break", text, table.concat(BREAKS, ", ") .. " or from 0 to " .. MOST_COLUMNS)
    end
    return text
end

local function width_setting(meta)
    local text = setting(meta, "width")
    if not text then
        return math.min(PANDOC_WRITER_OPTIONS.columns, MOST_COLUMNS)
    end
    local width = columns_of(text)
    if not width then
        refuse_setting("width", text, "from 1 to " .. MOST_COLUMNS)
    end
    return width
end

local function lay_out_document(doc)
    if not is_text and not is_markdown then
        complain("tables stay as pandoc writes them, since " .. FORMAT .. " is no format of text")
        return nil
    end
    settings = {
        program = find_program(),
        style = choice_setting(doc.meta, "style", STYLES),
        breaking = break_setting(doc.meta),
    }
    parts, tables, table_notes = pandoc.List({}), pandoc.List({}), no_notes()
    local width, notes = width_setting(doc.meta), no_notes()
    if is_text then
        -- A page is text to pandoc, which does not number the notes in it.
        doc.blocks = number_notes(doc.blocks, notes)
    end
    local text, below = lay_out_blocks(doc.blocks, width), lay_out_blocks(pandoc.Blocks(notes.blocks), width)
    if #tables == 0 then
        return nil
    end
    lay_out_all()
    doc.blocks = text() .. below()
    return doc
end

return { { Pandoc = lay_out_document } }
