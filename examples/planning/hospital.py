"""The way from the harbour to the hospital, and who is within twelve minutes of it."""
import diffuse

town = diffuse.Network.read_csv(
    "examples/planning/roads.csv", tail="from", head="to", both_ways="both_ways",
    costs={"minutes": 10, "km": 10, "lanes": 1}, places="examples/planning/places.csv")

route = town.route("Harbour", "Hospital", by="minutes")
print(route)
print(route.total("km"), "km by", ", ".join(route.cells("road")))

near = town.isochrone("Hospital", by="minutes", limits=[3, 6, 9, 12], towards=True)
for limit in near.limits:
    print(f"within {limit:g} minutes:", len(near.within(limit)), "places")

near.to_csv("hospital.csv")
near.to_geojson("hospital.geojson")
town.draw("hospital.svg", near, route, title="To the hospital")
