"""The stamps on which `run` and `blocks` try each operation: its name, what the trees are like, the word by which the two
programs know it, and the texts of two stamps. They are the same at every run.
"""
import random

random.seed(1)
DEPTH = 2000
LEVELS = 12
SIDES = [random.random() < 0.5 for _ in range(DEPTH - 1)] + [True]


def chain(depth, end, around):
    """The text `end` below so many nodes; at each the other child stands beside the way on, left or right."""
    for place in reversed(range(depth)):
        number, other = around(place)
        children = (end, other) if SIDES[place] else (other, end)
        end = f"({number}{children[0]},{children[1]})"
    return end


def id_chain(depth, end):
    return chain(depth, end, lambda place: ("", "0"))


def tree_chain(end, number_at):
    return chain(DEPTH - 1, end, lambda place: ("0,", number_at(place)))


def balanced(leaves, node):
    while len(leaves) > 1:
        leaves = [node(*leaves[place:place + 2]) for place in range(0, len(leaves), 2)]
    return leaves[0]


def id_node(left, right):
    return left if left == right and left in ("0", "1") else f"({left},{right})"


def tree_node(left, right):
    (low, _), (other_low, _) = left, right
    base = min(low, other_low)

    def lowered(tree):
        number, children = tree
        return f"({number - base},{children})" if children else f"{number - base}"

    return (base, f"{lowered(left)},{lowered(right)}")


def tree_of(leaves):
    number, children = balanced([(leaf, "") for leaf in leaves], tree_node)
    return f"({number},{children})"


def ids_of(pairs):
    return balanced([half for _ in range(2 ** LEVELS // (2 * len(pairs))) for pair in pairs for half in pair], id_node)


halves = [(low, low + random.randint(1, 3)) for low in (random.randint(0, 5) for _ in range(2 ** (LEVELS - 1)))]
up = [leaf for pair in halves for leaf in pair]
down = [leaf for pair in halves for leaf in reversed(pair)]
above = [leaf + random.randint(0, 1) for leaf in down]
above = [leaf + (place % 2 == 0 and leaf == above[place + 1]) for place, leaf in enumerate(above)]
id_pairs = ids_of([("1", "0")])
chain_tree = tree_chain("(0,9,0)", lambda place: 5 + place % 3)
chain_above = tree_chain("(0,9,0)", lambda place: 6 + place % 3)
chain_other = tree_chain("(0,0,9)", lambda place: 5 + (place + 1) % 3)
chain_id = id_chain(DEPTH, "1")
chain_part, chain_rest = id_chain(DEPTH, "(1,0)"), id_chain(DEPTH, "(0,1)")
fill_id = id_chain(DEPTH - 1, "1")
CHAIN, BALANCED = f"chain, {DEPTH} deep", f"balanced, {2 ** LEVELS} leaves"
CASES = [
    ("`share`", CHAIN, "share", f"[{chain_id};{chain_tree}]", "[0;0]"),
    ("`share`", BALANCED, "share", f"[{id_pairs};{tree_of(down)}]", "[0;0]"),
    ("`fork`", CHAIN, "fork", f"[0;{chain_tree}]", f"[0;{chain_other}]"),
    ("`fork`", BALANCED, "fork", f"[0;{tree_of(down)}]", f"[0;{tree_of(up)}]"),
    ("`split`", CHAIN, "split", f"[{chain_id};0]", "[0;0]"),
    ("`split`", BALANCED, "split", f"[{id_pairs};0]", "[0;0]"),
    ("`sum`", CHAIN, "sum", f"[{chain_part};0]", f"[{chain_rest};0]"),
    ("`sum`", BALANCED, "sum", f"[{id_pairs};0]", f"[{ids_of([('0', '1'), ('0', '0')])};0]"),
    ("`disjoint`", CHAIN, "disjoint", f"[{chain_part};0]", f"[{chain_rest};0]"),
    ("`disjoint`", BALANCED, "disjoint", f"[{id_pairs};0]", f"[{ids_of([('0', '1')])};0]"),
    ("`leq`", CHAIN, "leq", f"[0;{chain_tree}]", f"[0;{chain_above}]"),
    ("`leq`", BALANCED, "leq", f"[0;{tree_of(down)}]", f"[0;{tree_of(above)}]"),
    ("`order`", CHAIN, "order", f"[0;{chain_tree}]", f"[0;{chain_above}]"),
    ("`order`", BALANCED, "order", f"[0;{tree_of(down)}]", f"[0;{tree_of(above)}]"),
    ("`join`", CHAIN, "join", f"[0;{chain_tree}]", f"[0;{chain_other}]"),
    ("`join`", BALANCED, "join", f"[0;{tree_of(down)}]", f"[0;{tree_of(up)}]"),
    ("`join` with what is below", CHAIN, "join", f"[0;{chain_above}]", f"[0;{chain_tree}]"),
    ("`join` with what is below", BALANCED, "join", f"[0;{tree_of(above)}]", f"[0;{tree_of(down)}]"),
    ("`event` that fills", CHAIN, "event", f"[{fill_id};{chain_tree}]", "[0;0]"),
    ("`event` that fills", BALANCED, "event", f"[{id_pairs};{tree_of(up)}]", "[0;0]"),
    ("`event` that grows", CHAIN, "event", f"[{chain_id};{chain_tree}]", "[0;0]"),
    ("`event` that grows", BALANCED, "event", f"[{id_pairs};{tree_of(down)}]", "[0;0]"),
    ("`write_stamp`", CHAIN, "write", f"[{chain_id};{chain_tree}]", "[0;0]"),
    ("`write_stamp`", BALANCED, "write", f"[{id_pairs};{tree_of(down)}]", "[0;0]"),
    ("`read_stamp`", CHAIN, "read", f"[{chain_id};{chain_tree}]", "[0;0]"),
    ("`read_stamp`", BALANCED, "read", f"[{id_pairs};{tree_of(down)}]", "[0;0]"),
]
