"""The dashboards of deploy/, over the Prometheus of metrics_check: whether each of their queries parses and has had data,
whether grafana.json is as Grafana reads it, and what headless Chromium shows of needleazure.html."""
import html
import json
import math
import re
import shutil
import subprocess
import time
import urllib.parse

import servers
from servers import hold

BOARD, CONSOLE = json.loads(servers.text_at("deploy/grafana.json")), servers.text_at("deploy/needleazure.html")
# what the console of Debian's Prometheus is drawn with, beside Prometheus itself
PACKAGES = ["libjs-bootstrap4", "libjs-d3", "libjs-jquery", "libjs-popper.js", "libjs-rickshaw", "fonts-glyphicons-halflings"]
EXAMPLES = "usr/share/doc/prometheus/examples/console_libraries"
MINUTES, GRAPHS, PATIENCE = 5, 8, 30


def queries_of(instance):
    """The queries of grafana.json, by the titles of their panels, and those of needleazure.html, by their variables."""
    for panel in BOARD["panels"]:
        for target in panel["targets"]:
            yield f"grafana.json, {panel['title']}", target["expr"].replace("$instance", instance)
    for name, query in re.findall(r'{{ \$(\w+) := printf "([^"]*needleazure_[^"]*)" \$of }}', CONSOLE):
        yield f"needleazure.html, {name}", query % f"instance='{instance}'"


def board_faults():
    """What Grafana would not show of grafana.json as it is meant."""
    panels, taken = BOARD["panels"], set()
    if len({it["id"] for it in panels}) < len(panels):
        yield "two panels of one id"
    for it in panels:
        place = it["gridPos"]
        columns = range(place["x"], place["x"] + place["w"])
        squares = {(x, y) for x in columns for y in range(place["y"], place["y"] + place["h"])}
        if squares & taken or place["x"] + place["w"] > 24:
            yield f"{it['title']}: over another panel, or wider than the page"
        taken |= squares
        if not it["title"] or not it["description"] or not it["fieldConfig"]["defaults"]["unit"]:
            yield f"{it['title']}: without a title, a description or a unit"
        if any(target["datasource"]["uid"] != "${datasource}" for target in it["targets"]):
            yield f"{it['title']}: not of the data source that is chosen"
    if [it["name"] for it in BOARD["templating"]["list"]] != ["datasource", "instance"]:
        yield "not the variables datasource and instance"


def parse_faults(promtool, queries, work):
    rules = [{"record": f"query:{at}", "expr": query} for at, (_, query) in enumerate(queries)]
    servers.write(f"{work}/queries.yml", json.dumps({"groups": [{"name": "queries", "rules": rules}]}).encode())
    words = [promtool, "check", "rules", f"{work}/queries.yml"]
    ended = subprocess.run(words, capture_output=True, text=True, timeout=60, check=False)
    return (ended.stdout + ended.stderr).strip() if ended.returncode else ""


def has_data(port, query):
    now = time.time()
    words = urllib.parse.urlencode({"query": query, "start": now - 60 * MINUTES, "end": now, "step": 1})
    found = json.loads(servers.get(port, f"/api/v1/query_range?{words}"))["data"]["result"]
    return any(math.isfinite(float(value)) for series in found for _, value in series["values"])


def opened(port, work):
    """What headless Chromium has of the page, once its graphs are drawn."""
    place = urllib.parse.quote(json.dumps({"duration": 60 * MINUTES, "endTime": 0}))
    # (its own shelter needs a user who isn't root, and it reads nothing but this page)
    words = [shutil.which("chromium"), "--headless=new", "--no-sandbox", "--disable-gpu",
             "--window-size=1400,1340", "--virtual-time-budget=8000", f"--user-data-dir={work}/chromium",
             "--dump-dom", f"http://127.0.0.1:{port}/consoles/needleazure.html#pctc{place}"]
    ended = subprocess.run(words, capture_output=True, text=True, timeout=120, check=True, cwd=work)
    return ended.stdout


def console_faults(page, shards):
    drawn = re.findall(r'<div id="(\w+)"><table class="prom_graph_table">(.*?)</table></div>', page, re.S)
    for name, graph in drawn:
        if not re.search(r'<path class="path" d="M', graph) or "prom_graph_error" in graph:
            yield f"the graph {name} is empty"
    if len(drawn) != GRAPHS:
        yield f"{len(drawn)} graphs in place of {GRAPHS}"
    tables = re.findall(r'<table class="table [^>]*id="(\w+)">(.*?)</table>', page, re.S)
    rows = {name: re.findall(r"<tr>\s*<td>(.*?)</tr>", text, re.S) for name, text in tables}
    if [len(rows.get(it, [])) for it in ("server", "shards")] != [1, shards]:
        yield f"tables of {[(name, len(it)) for name, it in rows.items()]} rows"
    for name, row in ((name, row) for name, found in rows.items() for row in found):
        cells = [html.unescape(re.sub(r"<[^>]*>", "", it)).strip() for it in re.split(r"<td>", row)]
        if not all(cells) or "-" in cells:
            yield f"an empty cell in {name}: {cells}"


def hold_all(promtool, port, instance, work, shards):
    faults, queries = list(board_faults()), list(queries_of(instance))
    hold(not faults, f"grafana.json is as Grafana reads it {faults or ''}".strip())
    fault = parse_faults(promtool, queries, work)
    hold(not fault, f"promtool parses the {len(queries)} queries of the dashboards {fault}".strip())
    empty = [name for name, query in queries if not has_data(port, query)]
    hold(len(queries) > 25 and not empty, f"and each has had data {empty or ''}".strip())
    hold(shutil.which("chromium"), "Chromium is installed (apt-get install chromium)")
    # (the drain has to have been at the server that was started just before)
    look = lambda: list(console_faults(opened(port, work), shards))
    servers.wait_until(lambda: not look(), PATIENCE, 3)
    faults = look()
    what = f"Chromium shows needleazure.html: {GRAPHS} graphs, and a row for each of {shards} shards"
    hold(not faults, f"{what} {faults or ''}".strip())
