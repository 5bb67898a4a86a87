-- For wrk: pushes of ten lines of 200 bytes, each thread to streams of its own, at times that rise.
-- wrk -t2 -c32 -d10 -s tests/measure/push.lua http://127.0.0.1:3100/loki/api/v1/push
-- Behind `-- FILE TYPE [ENCODING]` the bodies of a file, each as its length, a line end, and its bytes.
local threads = 0
-- how many streams a push has, and how many lines each (streams.lua has others)
streams, lines = streams or 1, lines or 10

function setup(thread)
   threads = threads + 1
   thread:set("id", threads)
end

function init(args)
   calls, written = 0, 0
   line = string.rep("x", 200)
   start = os.time()
   wrk.method = "POST"
   wrk.headers["Content-Type"] = args[2] or "application/json"
   wrk.headers["Content-Encoding"] = args[3]
   wrk.headers["X-Scope-OrgID"] = "load"
   if args[1] then
      local file = assert(io.open(args[1], "rb"))
      requests = {}
      for length in file:lines() do
         requests[#requests + 1] = wrk.format(nil, nil, nil, file:read(tonumber(length)))
      end
   end
end

local function labels_of(at)
   if streams == 1 then
      return string.format('{"load":"%d-%d"}', id, calls % 8)
   end
   return string.format('{"pod":"%d","load":"%d"}', at, id)
end

function request()
   calls = calls + 1
   if requests then
      return requests[(id * 997 + calls) % #requests + 1]
   end
   local its = {}
   for at = 1, streams do
      local values = {}
      for of = 1, lines do
         written = written + 1
         values[of] = string.format('["%d%06d000","%s"]', start + math.floor(written / 1000000), written % 1000000, line)
      end
      its[at] = string.format('{"stream":%s,"values":[%s]}', labels_of(at), table.concat(values, ","))
   end
   return wrk.format(nil, nil, nil, '{"streams":[' .. table.concat(its, ",") .. "]}")
end

function done(summary, latency)
   local errors = summary.errors
   local lost = errors.connect + errors.read + errors.write + errors.timeout
   io.write(string.format("refused: %d, errors of sockets: %d\n", errors.status, lost))
end
