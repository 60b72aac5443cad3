"""Graph files, as `overlay analyse` reads them."""


def write(name, graph):
    """Writes a graph of networkx into the file NAME.graph. Its nodes get the ids from 1 on, in their order."""
    place = {node: at for at, node in enumerate(sorted(graph), 1)}
    links = sorted(sorted((place[a], place[b])) for a, b in graph.edges())
    with open(f"{name}.graph", "w") as file:
        file.writelines(f"node {node}\n" for node in sorted(place.values()))
        file.writelines(f"link {low} {high}\n" for low, high in links)
