import networkx as nx, random, sys
def write(name, g):
    nodes=sorted(g.nodes()); pos={v:i+1 for i,v in enumerate(nodes)}
    with open(name,'w') as f:
        f.write(f"{len(nodes)} {g.number_of_edges()}\n")
        for a,b in sorted(tuple(sorted((pos[a],pos[b]))) for a,b in g.edges()): f.write(f"{a} {b}\n")
g=nx.circulant_graph(200,[1,2,3,4]); write('ring-200',g)
write('regular-256',nx.random_regular_graph(5,256,seed=1))
write('regular-1024',nx.random_regular_graph(5,1024,seed=1))
g=nx.complete_graph(256); g.remove_edge(0,1); write('all-but-one-256',g)
write('half-256',nx.gnp_random_graph(256,0.5,seed=1))
