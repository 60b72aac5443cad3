"""The tables of docs/DESIGN-STUDY.md, made of the rows of sweeps."""

from collections import Counter

from mean_field import WALK, shares_of
from options import CHOICES
from sweeps import LARGE, LARGE_BY, SWEEPS, SWEPT, grouped, mean, numbers, quantile, rows, split, wilson


def percent(hits, count):
    """A share in percent, with its 95 % interval."""
    low, high = wilson(hits, count)
    return f"{100 * hits / count:.1f} ({100 * low:.1f} to {100 * high:.1f})"


def plain(share):
    """A share in percent."""
    return f"{100 * share:.1f}"


def quartiles(some, phase):
    """The quartiles of k after a phase."""
    found = numbers(some, f"{phase}_k")
    return ", ".join(str(quantile(found, part)) for part in (0.25, 0.5, 0.75))


def median(some, phase):
    """The median of k after a phase."""
    return str(quantile(numbers(some, f"{phase}_k"), 0.5))


def table(head, lines):
    """A table of Markdown, whose first column is on the left."""
    yield "| " + " | ".join(head) + " |"
    yield "|---|" + "---:|" * (len(head) - 1)
    for line in lines:
        yield "| " + " | ".join(map(str, line)) + " |"


def made_by(names):
    """The commands that made rows, or who made them and where the commands stand."""
    swept = [name for name in names if name in SWEEPS]
    if swept == names:
        return "; ".join(f"`overlay sweep {SWEEPS[name]}`" for name in names)
    by = (("overlay sweep", swept), ("simulate", [name for name in names if name not in SWEEPS]))
    parts = [f"by `{program}` " + ", ".join(f"`{name}`" for name in some) for program, some in by if some]
    return "; ".join(parts) + ", of [sweeps.py](../bench/study/sweeps.py)"


def active():
    """How often an overlay is split, by its size and the active size."""
    found, sizes = grouped("active", "active", "nodes"), ("50", "100", "150", "200")
    lines = [
        [
            size,
            *(percent(split(found[size, nodes], "settle"), len(found[size, nodes])) for nodes in sizes),
            quartiles(found[size, "200"], "settle"),
        ]
        for size in dict.fromkeys(key[0] for key in found)
    ]
    return table(["active size", *(f"{nodes} nodes, % split" for nodes in sizes), "k of 200 nodes, quartiles"], lines)


def fates():
    """What became of nodes that are alone."""
    lines = []
    for (nodes,), some in grouped("fates", "nodes").items():
        whole = sum(row["components"] == "1" for row in some)
        lines.append(
            [
                nodes,
                len(some),
                len(some) - whole,
                *(
                    sum(numbers(some, column))
                    for column in ("alone", "by_disconnect", "have_passive")
                ),
            ]
        )
    return table(
        [
            "nodes",
            "overlays",
            "split",
            "nodes alone",
            "lost the last link by DISCONNECT",
            "with passive members",
        ],
        lines,
    )


def splits():
    """What is cut off at once."""
    found = Counter(row["what"] for row in rows("splits"))
    sizes = Counter(int(row["size"]) for row in rows("splits") if row["what"] == "cut off")
    lines = [[size, count] for size, count in sorted(sizes.items())]
    return [
        *table(["nodes of a part when it is cut off", "parts"], lines),
        "",
        f"Births after which two components had become one: {found['joined']}.",
    ]


def rules():
    """How often an overlay is split by each rule at DISCONNECT."""
    found = grouped("rules", "refill", "active", "nodes")
    lines = []
    for rule, size in dict.fromkeys(key[:2] for key in found):
        some = [found[rule, size, nodes] for nodes in ("50", "100", "200")]
        large = some[-1]
        lines.append(
            [
                f"`{rule}`",
                size,
                *(plain(split(it, "settle") / len(it)) for it in some),
                quartiles(large, "settle"),
                f"{mean(large, 'settle_entries'):,.0f}",
                plain(split(large, "heal") / len(large)),
                quartiles(large, "heal"),
            ]
        )
    head = ["rule", "active size", "50 nodes, % split", "100 nodes", "200 nodes", "k of 200, quartiles"]
    return table([*head, "events of 200 until settled", "healed: % split", "k then"], lines)


def at_once():
    """What reports do that come all at once."""
    found, usual = grouped("at-once", "active", "nodes"), grouped("rules", "active", "nodes", "refill")
    lines = [
        [
            size,
            nodes,
            *(
                part
                for some in (usual[size, nodes, "never"], found[size, nodes])
                for part in (plain(split(some, "heal") / len(some)), median(some, "heal"))
            ),
        ]
        for size, nodes in found
    ]
    head = ["active size", "nodes", "one by one: % split after healing", "median k", "at once: % split after healing"]
    return table([*head, "median k"], lines)


REFILLS = CHOICES["refill"]
# The share of split overlays that a designer may bear.
FEW = 0.02
# What befalls overlays of 200 nodes: the sweep, which of its rows, and how it is said.
HAZARDS = (
    ("rules-crash", {"crash": "0"}, "nothing"),
    ("rules-crash", {"crash": "20"}, "20 of 100 crash"),
    ("rules-crash", {"crash": "50"}, "50 of 100 crash"),
    ("rules-crash", {"crash": "cut"}, "the cut crashes"),
    ("rules-passive", {}, "passive size 1, 20 of 100 crash"),
    ("rules-loss", {}, "5 of 100 packets lost after all have joined, 20 of 100 crash"),
    ("rules-loss-join", {}, "1 of 100 packets lost while nodes join, 20 of 100 crash"),
    ("rules-pace", {}, "all are born at once, 20 of 100 crash"),
)


def hazards():
    """What crashes, loss and so on do by each rule at DISCONNECT."""
    lines = []
    for name, options, said in HAZARDS:
        found = grouped(name, "refill", *options)
        by_rule = [found[rule, *options.values()] for rule in REFILLS]
        cells = [(plain(split(some, "heal") / len(some)), median(some, "heal")) for some in by_rule]
        lines.append([said, *(cell for pair in cells for cell in pair)])
    head = [word for rule in REFILLS for word in (f"`{rule}`: % split", "median k")]
    return table(["what befalls them", *head], lines)


def by_place(names):
    """The rows of sweeps, by nodes and active size."""
    found = {}
    for name in names:
        for row in rows(name):
            found.setdefault((int(row["nodes"]), int(row["active"])), []).append(row)
    return found


def tellers(names):
    """The sweeps that tell whether the overlays of these are split: those of the tool where there are such."""
    return [SWEPT.get(name, name) for name in names]


def with_tellers(names):
    """Sweeps, and those of the tool of the same overlays."""
    return [*dict.fromkeys([*tellers(names), *names])]


def rules_large():
    """What the rules at DISCONNECT do past 256 nodes."""
    lines = []
    for rule in ("alone", "always"):
        told = by_place(tellers(LARGE_BY[rule]))
        for (nodes, size), some in by_place(LARGE_BY[rule]).items():
            lines.append(
                [
                    f"`{rule}`",
                    f"{nodes:,}",
                    size,
                    len(some),
                    plain(share_split(told[nodes, size])),
                    f"{1e5 * cut_off(some) / (nodes * len(some)):.1f}",
                    f"{least_degree(told[nodes, size]):.2f}",
                ]
            )
    head = ["rule", "nodes", "active size", "overlays", "% split", "components but one, of 100,000"]
    return table([*head, "least degree, mean"], lines)


def share_split(some):
    """The share of large overlays that are split, in rows of the tool or of the simulation."""
    if "settle_k" in some[0]:
        return split(some, "settle") / len(some)
    return sum(row["components"] != "1" for row in some) / len(some)


def least_degree(some):
    """The mean least degree of large overlays, in rows of the tool or of the simulation."""
    return mean(some, "settle_least_degree" if "settle_k" in some[0] else "least_degree")


def cut_off(some):
    """How many components but the first some overlays have."""
    return sum(numbers(some, "components")) - len(some)


def advice():
    """Which active size is enough by each rule at DISCONNECT: the least one from which on few overlays are split."""
    lines = []
    for rule, does, who in (
        ("always", "looks for another neighbour", "iroh-gossip"),
        ("alone", "looks for one if it has no other", "Partisan"),
        ("never", "does nothing", "the profile, the paper's listing"),
    ):
        by_tool = grouped("active" if rule == "never" else "rules", "nodes", "active", "refill")
        shares = {
            (int(nodes), int(size)): split(some, "settle") / len(some)
            for (nodes, size, by), some in by_tool.items()
            if by == rule and nodes in ("100", "200")
        }
        shares |= {place: share_split(some) for place, some in by_place(tellers(LARGE_BY[rule])).items()}
        least = [enough(shares, nodes) for nodes in (100, 200, 1000, 10000, 100000)]
        lines.append([does, f"`{rule}`", who, *least])
    head = ["a node that is told DISCONNECT", "`--refill`", "such as", "100 nodes", "200", "1,000", "10,000"]
    return table([*head, "100,000"], lines)


def enough(shares, nodes):
    """The least active size from which on few overlays of so many nodes are split, of those that were tried."""
    tried = {size: share for (count, size), share in shares.items() if count == nodes}
    many = [size for size, share in tried.items() if share > FEW]
    return min((size for size in tried if size > max(many, default=0)), default=f"over {max(tried)}")


def crash():
    """What crashes do, and healing."""
    lines = []
    for (size, share), some in grouped("crash", "active", "crash").items():
        if size == "6" or share == "30":
            continue
        lines.append(
            [
                size,
                share,
                *(
                    part
                    for phase in ("crash", "heal")
                    for part in (
                        plain(split(some, phase) / len(some)),
                        median(some, phase),
                        f"{mean(some, f'{phase}_delivered'):.4f}",
                    )
                ),
            ]
        )
    return table(
        [
            "active size",
            "of 100 crash",
            "after the crash: % split",
            "median k",
            "delivered",
            "healed: % split",
            "median k",
            "delivered",
        ],
        lines,
    )


def passive():
    """What the passive size does."""
    found = grouped("passive", "passive", "active")
    lines = [
        [
            size,
            *(
                part
                for other in ("5", "8")
                for part in (
                    percent(split(found[size, other], "heal"), len(found[size, other])),
                    median(found[size, other], "heal"),
                    f"{mean(found[size, other], 'heal_links'):.0f}",
                )
            ),
        ]
        for size in dict.fromkeys(key[0] for key in found)
    ]
    return table(
        [
            "passive size",
            "active 5: % split after healing",
            "median k",
            "links",
            "active 8: % split after healing",
            "median k",
            "links",
        ],
        lines,
    )


def loss():
    """What loss does after all have joined."""
    lines = [
        [
            size,
            share,
            percent(split(some, "heal"), len(some)),
            median(some, "heal"),
            f"{mean(some, 'heal_delivered'):.4f}",
        ]
        for (size, share), some in grouped("loss", "active", "loss").items()
    ]
    return table(
        [
            "active size",
            "of 100 packets lost",
            "healed: % split",
            "median k",
            "delivered",
        ],
        lines,
    )


def loss_join():
    """What loss does while nodes join."""
    found = grouped("loss-join", "loss_join", "active")
    lines = [
        [
            share,
            *(
                part
                for size in ("5", "8", "10")
                for part in (
                    percent(split(found[share, size], "settle"), len(found[share, size])),
                    median(found[share, size], "settle"),
                )
            ),
        ]
        for share in dict.fromkeys(key[0] for key in found)
    ]
    return table(
        ["of 100 packets lost", *(word for size in (5, 8, 10) for word in (f"active {size}: % split", "median k"))],
        lines,
    )


def one_option(name, option, said, phase):
    """What one option does, for active sizes 5 and 8."""
    found = grouped(name, option, "active")
    lines = [
        [
            value or "not given",
            *(
                part
                for size in ("5", "8")
                for part in (
                    plain(split(found[value, size], phase) / len(found[value, size])),
                    median(found[value, size], phase),
                )
            ),
        ]
        for value in dict.fromkeys(key[0] for key in found)
    ]
    return table([said, "active 5: % split", "median k", "active 8: % split", "median k"], lines)


def walks():
    """What longer walks do."""
    return one_option("walks", "arwl", "ARWL", "settle")


def pace():
    """What births close to each other do."""
    return one_option("pace", "pace", "turns between two births", "settle")


def rounds_of_shuffles():
    """What rounds of shuffles before the crash do; those after it change nothing."""
    found = grouped("rounds", "rounds", "heal", "active")
    lines = []
    for before in dict.fromkeys(key[0] for key in found):
        line = [before]
        for size in ("5", "8"):
            some = found[before, "2", size]
            line += [f"{mean(some, 'heal_links'):.1f}", split(some, "heal")]
        lines.append(line)
    said = (f"active {size}: {word}" for size in (5, 8) for word in ("links when healed", "split of 200"))
    return table(["rounds before", *said], lines)


def large():
    """Overlays past 256 nodes."""
    lines = []
    told = by_place(tellers(LARGE))
    for (nodes, size), some in by_place(LARGE).items():
        if size not in (5, 8, 10):
            continue
        total = nodes * len(some)
        lines.append(
            [
                f"{nodes:,}",
                size,
                len(some),
                plain(share_split(told[nodes, size])),
                f"{1e5 * sum(numbers(some, 'alone')) / total:.1f}",
                f"{1e5 * cut_off(some) / total:.1f}",
                f"{least_degree(told[nodes, size]):.2f}",
            ]
        )
    return table(
        [
            "nodes",
            "active size",
            "overlays",
            "% split",
            "alone, of 100,000 nodes",
            "components but one, of 100,000",
            "least degree, mean",
        ],
        lines,
    )


def degrees():
    """The shares of nodes by their links, and those of the equations."""
    lines = []
    for size in (5, 8):
        some, asked = rows(f"degrees-{size}"), shares_of(size)
        counted = [sum(int(row[f"degree_{links}"]) for row in some) for links in range(size + 1)]
        lines.append(
            [f"active size {size}, counted", *(f"{100 * it / sum(counted):.3f}" for it in counted), *[""] * (8 - size)]
        )
        lines.append([f"active size {size}, equations", *(f"{100 * it:.3f}" for it in asked), *[""] * (8 - size)])
    return table(["% of nodes with so many links", *map(str, range(9))], lines)


def rates():
    """How often a node with one link loses it, by what is counted, and how many nodes are alone by that."""
    lines = []
    for size in (5, 8):
        some = rows(f"degrees-{size}")
        total = sum(numbers(some, "nodes"))
        shares = [sum(numbers(some, f"degree_{links}")) / total for links in range(size + 1)]
        full = sum(numbers(some, "full_beside_one")) / (shares[1] * total)
        degree = sum(links * share for links, share in enumerate(shares))
        walks_out = sum(min(links, size - 1) * share for links, share in enumerate(shares))
        over_link = walks_out * (1 - shares[1] / degree) ** WALK / (degree - shares[1])
        lost = full / size * (1 + (size - 1) * over_link)
        lines.append(
            [
                size,
                f"{full:.2f}",
                f"{walks_out:.2f}",
                f"{degree:.2f}",
                f"{lost:.2f}",
                f"{100 * shares[1]:.3f}",
                f"{50 * lost * shares[1]:.4f}",
                f"{100 * shares[0]:.4f}",
            ]
        )
    return table(["active size A", "φ", "w", "d", "λ", "% with one link", "% alone by λ", "% alone, counted"], lines)


# Each table by its mark in the document, and the sweeps that it is made of.
TABLES = {
    "active": (active, ["active"]),
    "fates": (fates, ["fates"]),
    "splits": (splits, ["splits"]),
    "rules": (rules, ["rules"]),
    "rules-large": (rules_large, with_tellers([*LARGE_BY["alone"], *LARGE_BY["always"]])),
    "advice": (advice, ["rules", "active", *(name for names in LARGE_BY.values() for name in tellers(names))]),
    "at-once": (at_once, ["at-once", "rules"]),
    "hazards": (hazards, ["rules-crash", "rules-passive", "rules-loss", "rules-loss-join", "rules-pace"]),
    "crash": (crash, ["crash"]),
    "passive": (passive, ["passive"]),
    "loss": (loss, ["loss"]),
    "loss-join": (loss_join, ["loss-join"]),
    "walks": (walks, ["walks"]),
    "pace": (pace, ["pace"]),
    "rounds": (rounds_of_shuffles, ["rounds"]),
    "large": (large, with_tellers(LARGE)),
    "rates": (rates, ["degrees-5", "degrees-8"]),
    "degrees": (degrees, ["degrees-5", "degrees-8"]),
}


def lines_of(name):
    """A table with the commands of its rows."""
    made, sources = TABLES[name]
    return [*made(), "", f"Rows: {made_by(sources)}."]
