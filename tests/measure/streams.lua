-- For wrk: pushes of 50 streams with two lines of 200 bytes each, as a collector of many containers sends them, at
-- times that rise.
-- wrk -t2 -c8 -d10 --latency -s tests/measure/streams.lua http://127.0.0.1:3100/loki/api/v1/push
streams, lines = 50, 2
dofile((debug.getinfo(1, "S").source:match("@(.*/)") or "") .. "push.lua")
