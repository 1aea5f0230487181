"""Ways from the harbour to the hospital: what is best depends on the cost, and on the algebra."""
import diffuse

town = diffuse.Network.read_csv(
    "examples/planning/roads.csv", tail="from", head="to", both_ways="both_ways",
    costs={"minutes": 10, "km": 10, "lanes": 1}, places="examples/planning/places.csv")
town = town.with_sum("minutes and 2 a km", {"minutes": 1, "km": 2}, scale=10)

for by, algebra in [("minutes", "shortest"), ("km", "shortest"), ("minutes and 2 a km", "shortest"),
                    ("lanes", "widest"), ("minutes", "hops")]:
    route = town.route("Harbour", "Hospital", by=by, algebra=algebra)
    print(f"{algebra} by {by}: {route.total('minutes')} minutes, {route.total('km')} km")
    print("   ", ", ".join(route.cells("road")))
