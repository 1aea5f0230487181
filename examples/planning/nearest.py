"""Which of two clinics each place goes to, and how long that takes."""
import diffuse

town = diffuse.Network.read_csv(
    "examples/planning/roads.csv", tail="from", head="to", both_ways="both_ways",
    costs={"minutes": 10}, places="examples/planning/places.csv")

tree = town.tree(["Hospital", "Mill"], by="minutes", towards=True)
for place in ["Theatre", "Cathedral", "Castle", "Island"]:
    if tree.cost(place) is None:
        print(f"{place}: no way")
    else:
        print(f"{place}: {tree.source(place)}, {tree.cost(place)} minutes, first to {tree.neighbour(place)}")

tree.to_csv("nearest.csv")
town.draw("nearest.svg", tree, title="To the nearest clinic")
