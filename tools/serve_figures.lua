-- The requests of serve_figures.py. Each thread of wrk is one client with one connection.
-- Words behind --: what is asked (standing, once, moves or wishes), how many clients there are, and a file: the moves of a game in its
-- first line, and then a line for each game with its number and the keys of White and of Black.

local threads = 0

-- The words of a line.
local function words_of(line)
  local words = {}
  for word in line:gmatch("%S+") do words[#words + 1] = word end
  return words
end

-- A request for a path of the interface.
local function text(method, path, key, more)
  return method .. " /api/" .. path .. " HTTP/1.1\r\nHost: arena\r\nAuthorization: Bearer " .. key .. "\r\n" .. (more or "") .. "\r\n"
end

-- The moves of one's own games, one game after another; at their end the last of them again, which is refused.
local function moves(line, games)
  local game, ply = 1, 0
  return function()
    ply = ply + 1
    if ply > #line and game < #games then game, ply = game + 1, 1 end
    local own, at = games[game], math.min(ply, #line)
    return text("POST", "game/" .. own[1] .. "/move/" .. line[at], own[3 - at % 2])
  end
end

-- White of one's first game pauses and enters, by turns.
local function wishes(games)
  local pauses = false
  return function()
    pauses = not pauses
    return text("POST", pauses and "pause" or "enter", games[1][2])
  end
end

function setup(thread)
  thread:set("number", threads)
  threads = threads + 1
end

function init(words)
  local kind, clients, line, games, at = words[1], tonumber(words[2]), nil, {}, 0
  for row in io.lines(words[3]) do
    if not line then
      line = words_of(row)
    else
      if at % clients == number then games[#games + 1] = words_of(row) end
      at = at + 1
    end
  end
  local table_text = text("GET", "standing/0", games[1][2], kind == "once" and "Connection: close\r\n")
  local next_text = kind == "moves" and moves(line, games) or kind == "wishes" and wishes(games) or function() return table_text end
  -- Before it begins, wrk has the first thread make a request that it does not send.
  local begun = number > 0
  request = function()
    if begun then return next_text() end
    begun = true
    return table_text
  end
end

function done(summary)
  local errors = summary.errors
  print(("figures %d %d %d %d"):format(summary.requests, summary.duration, errors.status, errors.connect + errors.read + errors.write + errors.timeout))
end
