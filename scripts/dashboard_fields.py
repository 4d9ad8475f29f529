"""The fields of a dashboard of Grafana, as its schema has them: of the dashboard, its variables, its panels of the kinds `timeseries` and `stat`,
and their queries to a Prometheus. A field that isn't among them, or has another kind of value, is a fault, and so is one that lacks."""

import re

NUMBER, TEXT, TRUTH = (int, float), str, bool


def one_of(*values):
    return lambda it: it in values


def texts(it):
    return isinstance(it, list) and all(isinstance(one, str) for one in it)


def name_of_unit(it):
    return it in ("s", "bps", "bytes", "reqps", "short", "none")


SOURCE = {"type": TEXT, "uid": TEXT}
# The fields of each object; those behind a star have to be there.
TARGET = {"*datasource": SOURCE, "*expr": TEXT, "*refId": lambda it: re.fullmatch("[A-Z]", it), "editorMode": one_of("code", "builder"),
          "legendFormat": TEXT, "range": TRUTH, "instant": TRUTH, "exemplar": TRUTH, "format": one_of("time_series", "table", "heatmap"),
          "interval": TEXT, "intervalFactor": NUMBER, "hide": TRUTH}
STEP = {"*color": TEXT, "*value": lambda it: it is None or isinstance(it, NUMBER)}
MAPPING = {"*type": one_of("value"), "*options": lambda it: all(set(one) <= {"text", "color", "icon", "index"} for one in it.values())}
CUSTOM = {"drawStyle": one_of("line", "bars", "points"), "lineInterpolation": one_of("linear", "smooth", "stepBefore", "stepAfter"),
          "lineWidth": NUMBER, "fillOpacity": NUMBER, "showPoints": one_of("auto", "never", "always"), "spanNulls": TRUTH, "gradientMode": TEXT, "pointSize": NUMBER,
          "thresholdsStyle": {"*mode": one_of("off", "line", "dashed", "area", "line+area", "dashed+area", "series")}}
DEFAULTS = {"*color": {"*mode": one_of("thresholds", "palette-classic", "fixed"), "fixedColor": TEXT}, "mappings": [MAPPING], "unit": name_of_unit,
            "*thresholds": {"*mode": one_of("absolute", "percentage"), "*steps": [STEP]}, "custom": CUSTOM, "min": NUMBER, "max": NUMBER,
            "decimals": NUMBER, "noValue": TEXT, "displayName": TEXT}
REDUCE = {"*calcs": texts, "fields": TEXT, "values": TRUTH, "limit": NUMBER}
OPTIONS = {
    "timeseries": {"*legend": {"*calcs": texts, "*displayMode": one_of("list", "table", "hidden"), "*placement": one_of("bottom", "right"),
                               "showLegend": TRUTH},
                   "*tooltip": {"*mode": one_of("single", "multi", "none"), "*sort": one_of("none", "asc", "desc")}},
    "stat": {"*reduceOptions": REDUCE, "colorMode": one_of("value", "background", "none"), "graphMode": one_of("none", "line", "area"),
             "justifyMode": one_of("auto", "center"), "orientation": one_of("auto", "vertical", "horizontal"),
             "textMode": one_of("auto", "value", "value_and_name", "name", "none")},
}
PANEL = {"*id": NUMBER, "*type": one_of(*OPTIONS), "*title": TEXT, "*datasource": SOURCE, "description": TEXT, "transparent": TRUTH,
         "*gridPos": {"*h": NUMBER, "*w": NUMBER, "*x": NUMBER, "*y": NUMBER}, "*fieldConfig": {"*defaults": DEFAULTS, "*overrides": []},
         "*options": lambda it: True, "*targets": [TARGET]}
CURRENT = {"selected": TRUTH, "text": texts, "value": texts}
VARIABLE = {"*name": TEXT, "*type": one_of("query", "datasource"), "label": TEXT, "datasource": SOURCE, "definition": TEXT,
            "*query": lambda it: isinstance(it, str) or set(it) == {"query", "refId"}, "*refresh": one_of(0, 1, 2), "sort": NUMBER,
            "hide": one_of(0, 1, 2), "includeAll": TRUTH, "allValue": TEXT, "multi": TRUTH, "current": CURRENT, "regex": TEXT}
DASHBOARD = {"*title": TEXT, "*uid": lambda it: re.fullmatch(r"[\w-]{1,40}", it), "tags": texts, "description": TEXT,
             "*schemaVersion": lambda it: 30 <= it <= 41, "version": NUMBER, "editable": TRUTH, "graphTooltip": one_of(0, 1, 2), "refresh": TEXT,
             "timezone": one_of("browser", "utc", ""), "*time": {"*from": TEXT, "*to": TEXT}, "timepicker": {}, "annotations": {"*list": []},
             "links": [], "*templating": {"*list": [VARIABLE]}, "*panels": [PANEL]}


def faults(it, shape, path):
    """What of a value isn't as the schema has it."""
    if isinstance(shape, dict):
        if not isinstance(it, dict):
            yield f"{path} is no object"
            return
        known = {key.lstrip("*"): value for key, value in shape.items()}
        yield from (f"{path}.{key} is no field" for key in it if key not in known)
        yield from (f"{path}.{key[1:]} is missing" for key in shape if key.startswith("*") and key[1:] not in it)
        for key in it:
            if key in known:
                yield from faults(it[key], known[key], f"{path}.{key}")
    elif isinstance(shape, list):
        if not isinstance(it, list):
            yield f"{path} is no list"
        elif not shape:
            yield from [f"{path} isn't empty"] if it else []
        else:
            for at, one in enumerate(it):
                yield from faults(one, shape[0], f"{path}[{at}]")
    elif isinstance(shape, (type, tuple)):
        # a truth is no number
        if not isinstance(it, shape) or (shape is NUMBER and isinstance(it, bool)):
            yield f"{path} is {it!r}"
    elif not shape(it):
        yield f"{path} is {it!r}"


def all_faults(dashboard):
    yield from faults(dashboard, DASHBOARD, "dashboard")
    for panel in dashboard["panels"]:
        yield from faults(panel["options"], OPTIONS[panel["type"]], f"{panel['title']}.options")
    numbers = [panel["id"] for panel in dashboard["panels"]]
    if len(set(numbers)) != len(numbers):
        yield "two panels have one id"
    taken = {}
    for panel in dashboard["panels"]:
        grid = panel["gridPos"]
        for place in ((x, y) for x in range(grid["x"], grid["x"] + grid["w"]) for y in range(grid["y"], grid["y"] + grid["h"])):
            if place[0] >= 24 or taken.setdefault(place, panel["title"]) != panel["title"]:
                yield f"{panel['title']} lies over {taken.get(place)}, or outside"
                break
