-- Writes each outermost table of a document, for real.py: a filter of pandoc.
--
--   REAL=FOLDER TABLELAYOUT=FOLDER/keep pandoc -t plain --lua-filter real.lua DOCUMENT
--
-- Into FOLDER goes for table N what the filter for tables gives to the program (N.html), what pandoc itself writes of
-- the table (N.own), and what it writes of each cell alone (N.cells). `keep` is a program that stores the file of a
-- request as FOLDER/in.html. Notes are left out, since they stand below a document and not in its tables, and so are
-- rules.
-- luacheck: std lua53, read globals pandoc PANDOC_SCRIPT_FILE

local folder = os.getenv("REAL")
local filter = dofile(PANDOC_SCRIPT_FILE:match("^(.*)/") .. "/../integrations/pandoc/tablelayout.lua")[1]
local WIDE = { wrap_text = "none", columns = 300 }

local function store(name, text)
    local file = assert(io.open(folder .. "/" .. name, "w"))
    file:write(text)
    file:close()
end

local function written(blocks)
    return pandoc.write(pandoc.Pandoc(blocks), "plain", WIDE)
end

local function all_rows(block)
    local rows = pandoc.List({}) .. block.head.rows
    for _, body in ipairs(block.bodies) do
        rows:extend(body.head)
        rows:extend(body.body)
    end
    return rows .. block.foot.rows
end

local function cells_of(block)
    local texts = pandoc.List({ written(block.caption.long) })
    for _, row in ipairs(all_rows(block)) do
        for _, cell in ipairs(row.cells) do
            texts:insert(written(cell.contents))
        end
    end
    return table.concat(texts, "\n")
end

local count = 0

local function store_table(block)
    count = count + 1
    filter.Pandoc(pandoc.Pandoc({ block }))
    os.rename(folder .. "/in.html", folder .. "/" .. count .. ".html")
    store(count .. ".own", written({ block }))
    store(count .. ".cells", cells_of(block))
    return {}, false
end

local function nothing()
    return {}
end

function Pandoc(doc) -- luacheck: ignore
    doc:walk({ Note = nothing, HorizontalRule = nothing }):walk({ traverse = "topdown", Table = store_table })
    return pandoc.Pandoc({})
end
