-- The load of the bench, for wrk: each request of a file is asked once, by whichever connection is free, and the run ends with the last answer.
-- A line of the file is a target, a tab and the value of the Cookie header, which may be empty. It writes the seconds from the first request to
-- the last answer, the processor's seconds that wrk took itself, and then a line for each answer: its status, its Location and its user.
local ffi = require('ffi')
ffi.cdef('typedef struct { long seconds, nanoseconds; } moment; int clock_gettime(int, moment *);')
local MONOTONIC, OWN_PROCESSOR = 1, 2

local requests, asked, answers, start = {}, 0, {}, nil

local function clock(which)
    local now = ffi.new('moment')
    ffi.C.clock_gettime(which, now)
    return tonumber(now.seconds) + tonumber(now.nanoseconds) / 1e9
end

function init(arguments)
    for line in io.lines(arguments[1]) do
        local target, cookie = line:match('^(.-)\t(.*)$')
        requests[#requests + 1] = wrk.format('GET', target, cookie ~= '' and { Host = wrk.host, Cookie = cookie } or nil)
    end
end

-- wrk asks once before it starts, to see what a request looks like. A connection that gets nothing to ask stays idle.
local seen = false
function request()
    if not seen then
        seen = true
        return requests[1]
    end
    start = start or clock(MONOTONIC)
    asked = asked + 1
    return requests[asked] or ''
end

function response(status, headers, body)
    answers[#answers + 1] = table.concat({ status, headers['Location'] or headers['location'] or '-', body:match('<cas:user>(.-)</cas:user>') or '-' }, ' ')
    if #answers == #requests then
        io.write(clock(MONOTONIC) - start, ' ', clock(OWN_PROCESSOR), '\n', table.concat(answers, '\n'), '\n')
        io.flush()
        os.exit(0)
    end
end
