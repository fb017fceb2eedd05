-- A script for wrk: POST the OCSP requests in the files that OCSP_REQUESTS names, in turn (RFC 6960 A.1), and report
-- the rate, the latencies and the number of failed requests in one line.
local bodies = {}
for name in os.getenv("OCSP_REQUESTS"):gmatch("%S+") do
    local file = assert(io.open(name, "rb"))
    bodies[#bodies + 1] = file:read("*a")
    file:close()
end
local at = 0
local headers = { ["Content-Type"] = "application/ocsp-request", ["Connection"] = "close" }

function request()
    at = at % #bodies + 1
    return wrk.format("POST", "/ocsp", headers, bodies[at])
end

function done(summary, latency)
    local errors = summary.errors
    io.write(string.format(
        "%d answers a second; median %d us, 99 %% %d us; failed: %d\n",
        summary.requests * 1e6 / summary.duration,
        latency:percentile(50),
        latency:percentile(99),
        errors.connect + errors.write + errors.timeout + errors.status
    ))
end
