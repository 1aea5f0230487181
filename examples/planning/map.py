"""From a map of OpenStreetMap to a route by car, to who is near the hospital, and to a picture."""
import diffuse

island = diffuse.Network.read_osm("examples/planning/island.osm", diffuse.DRIVING)
harbour, hospital = (0.0001, -0.0001), (0.0079, 0.0041)  # longitude and latitude
route = island.route(harbour, hospital, by="seconds")
near = island.isochrone(hospital, by="seconds", limits=[20, 40, 60, 80], towards=True)
island.draw("island.svg", near, route, labels={harbour: "Harbour", hospital: "Hospital"},
            title="By car to the hospital")
print(island.report, route, sep="\n")
