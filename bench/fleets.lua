-- wrk's script: polls of random devices of random fleets, each led to by path, by prefix or, through TLS, by host; or downloads of what they are offered.
-- wrk .. -s fleets.lua URL -- FIRST LAST DEVICES keep|close|download PAUSE
-- PAUSE: milliseconds from one poll of a connection to its next one, on the average; 0 for none
local first, last, devices, close, download, pause
function init(args)
    first, last, devices, close, download = tonumber(args[1]), tonumber(args[2]), tonumber(args[3]), args[4] == "close", args[4] == "download"
    pause = tonumber(args[5])
    math.randomseed(os.time())
    if pause == 0 then delay = nil end
end
-- wrk counts no reply's wait from before this
function delay()
    return math.random(0, 2 * pause)
end
function request()
    local fleet = string.format("f%02d", math.random(first, last))
    local id = string.format("%s-%05d", fleet, math.random(devices))
    -- the machine's own port answers to the machine's own names alone
    local way, headers, path = math.random(wrk.scheme == "https" and 3 or 2), { ["Authorization"] = "TargetToken tok-" .. id }, "/DEFAULT/controller/v1/" .. id
    if way == 1 then path = "/fleets/" .. fleet .. path end
    if way == 3 then headers["Host"] = fleet .. ".desk.example" end
    if download then path = path .. "/softwaremodules/1/artifacts/app.bin" end
    if close then headers["Connection"] = "close" end
    return wrk.format("GET", path, headers)
end
function done(summary, latency)
    local errors = summary.errors
    io.write(string.format("%.0f %.1f %.1f %.0f %d %d\n", summary.requests / summary.duration * 1e6, latency:percentile(50) / 1000,
        latency:percentile(99) / 1000, latency.max / 1000, errors.status, errors.connect + errors.read + errors.write + errors.timeout))
end
