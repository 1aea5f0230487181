"""Answers as CSV, GeoJSON, and frames of pandas and geopandas."""
from __future__ import annotations

import csv
import io
import json
import os
from itertools import chain
from math import inf
from typing import IO, Any, Hashable, Iterable, Iterator, Mapping, Optional, Sequence, Union

from .errors import InputError
from .geometry import Point
from .roads import Coordinates, free_name
from .tables import plain

Target = Union[str, "os.PathLike[str]", IO[str], None]
"""Where text is written: a path, an open file of text, or nowhere; then it is returned."""
Members = dict[str, Any]


def named_apart(pairs: Iterable[tuple[str, Any]]) -> Members:
    """Members by name, of which each has one of its own, even if a cost has the name of
    another."""
    found: Members = {}
    for name, value in pairs:
        found[free_name(name, found)] = value
    return found


def write(target: Target, parts: Iterable[str]) -> Optional[str]:
    """Writes text in UTF-8, or returns it if there is no target. Raises OSError."""
    if target is None:
        return "".join(parts)
    if not isinstance(target, (str, os.PathLike)):
        target.writelines(parts)
        return None
    with open(target, "w", encoding="utf-8", newline="") as file:
        file.writelines(parts)
    return None


def write_csv(target: Target, rows: Iterable[Mapping[str, Any]],
              header: Sequence[str]) -> Optional[str]:
    """Writes a table, or returns it; None is an empty cell. Raises OSError."""
    return write(target, _csv_lines(header, (row.values() for row in rows)))


def _csv_lines(header: Sequence[str], rows: Iterable[Iterable[Any]]) -> Iterator[str]:
    room = io.StringIO()
    writer = csv.writer(room, lineterminator="\n")
    for row in chain([header], rows):
        writer.writerow(row)
        yield room.getvalue()
        room.seek(0)
        room.truncate()


def write_geojson(target: Target, places: Optional[Coordinates],
                  features: Iterable[Mapping[str, Any]]) -> Optional[str]:
    """Writes a collection of features (RFC 7946), or returns it. Raises InputError without
    coordinates in degrees; OSError."""
    check_degrees(places)
    return write(target, _geojson_parts(features))


def check_degrees(places: Optional[Coordinates]) -> None:
    """Raises InputError without coordinates in degrees."""
    if places is None or not places.degrees:
        raise InputError("GeoJSON needs places with longitudes and latitudes in degrees")


def _geojson_parts(features: Iterable[Mapping[str, Any]]) -> Iterator[str]:
    yield '{"type": "FeatureCollection", "features": [\n'
    for number, feature in enumerate(features):
        yield (",\n" if number else "") + json.dumps(feature, ensure_ascii=False, default=_written)
    yield "\n]}\n"


def _written(value: Any) -> Any:
    """A number of numpy as one of Python, and anything else that JSON does not have as a text."""
    found = plain(value)
    return str(value) if found is value else found


def frame_of(rows: Iterable[Mapping[str, Any]], header: Sequence[str]) -> Any:
    """A DataFrame of pandas. Raises ImportError without pandas."""
    import pandas

    return pandas.DataFrame([list(row.values()) for row in rows], columns=list(header))


def geoframe_of(places: Optional[Coordinates], features: Iterable[Mapping[str, Any]]) -> Any:
    """A GeoDataFrame of geopandas, with a column for each total. Raises ImportError without
    geopandas; InputError without coordinates in degrees."""
    import geopandas

    check_degrees(places)
    flat = []
    for feature in features:
        members: Members = {}
        for name, value in feature["properties"].items():
            members.update(value if isinstance(value, dict) else {name: plain(value)})
        flat.append({**feature, "properties": members})
    if not flat:
        return geopandas.GeoDataFrame({"geometry": []}, crs="EPSG:4326")
    return geopandas.GeoDataFrame.from_features(flat, crs="EPSG:4326")


def point_feature(places: Optional[Coordinates], place: Hashable,
                  members: Mapping[str, Any]) -> Members:
    """A place as a point with these properties; without coordinates its geometry is null."""
    at = places.points.get(place) if places else None
    return feature_of({"type": "Point", "coordinates": list(at)} if at else None, members)


def line_feature(points: Sequence[Point], members: Mapping[str, Any]) -> Members:
    """A line as a feature, or a point if there is only one."""
    if not points:
        return feature_of(None, members)
    one = len(points) == 1
    return feature_of({"type": "Point" if one else "LineString",
                       "coordinates": points[0] if one else points}, members)


def feature_of(geometry: Optional[Mapping[str, Any]], members: Mapping[str, Any]) -> Members:
    """A feature; JSON has no infinity, so that is null."""
    properties = {key: None if value == inf else value for key, value in members.items()}
    return {"type": "Feature", "geometry": geometry, "properties": properties}
