"""What the checks ask of a devicetree, as `rim fdt` has read it."""
from __future__ import annotations

from outside.rim import Node, Tree

# The interrupt controllers, by what their nodes are compatible with.
GIC_3 = "arm,gic-v3"
GIC_2 = ("arm,cortex-a15-gic", "arm,gic-400", "arm,cortex-a9-gic", "arm,cortex-a7-gic", "arm,eb11mp-gic", "arm,pl390")


def numbers(value: bytes, *cells: int) -> list[tuple[int, ...]]:
    """The numbers of a property, in groups: of each as many cells of 4 bytes as is said."""
    step = 4 * sum(cells)
    groups = []
    for at in range(0, len(value) - step + 1, step) if step else ():
        group = []
        for count in cells:
            group.append(int.from_bytes(value[at:at + 4 * count], "big"))
            at += 4 * count
        groups.append(tuple(group))
    return groups


def is_memory(node: Node) -> bool:
    return node.name.split("@")[0] == "memory" or node.text("device_type") == "memory"


def memory(tree: Tree) -> list[tuple[int, int]]:
    """The ranges of RAM that the memory nodes have, each with its end, rising; neighbours are one."""
    cells = tree.root.cells("#address-cells", 2), tree.root.cells("#size-cells", 1)
    nodes = [node for node in tree.root.children if is_memory(node)]
    ranges = sorted((base, base + size) for node in nodes for base, size in numbers(node.properties.get("reg", b""), *cells))
    return merged(ranges)


def merged(ranges: list[tuple[int, int]]) -> list[tuple[int, int]]:
    """Rising ranges, of which those that touch are one."""
    joined: list[tuple[int, int]] = []
    for base, end in ranges:
        if joined and joined[-1][1] == base:
            joined[-1] = joined[-1][0], end
        else:
            joined.append((base, end))
    return joined


def windows(tree: Tree) -> list[tuple[str, int, int]]:
    """What the root's children take of the address space, but for RAM: name, base and end of each."""
    root = tree.root
    address, size = root.cells("#address-cells", 2), root.cells("#size-cells", 1)
    found = []
    for node in root.children:
        if node.name.split("@")[0] == "cpus" or is_memory(node):
            continue
        found += [(node.name, base, base + length) for base, length in numbers(node.properties.get("reg", b""), address, size)]
        inner = node.cells("#address-cells", 2), address, node.cells("#size-cells", 1)
        found += [(node.name, base, base + length) for _, base, length in numbers(node.properties.get("ranges", b""), *inner)]
    return found


def processor_nodes(tree: Tree) -> list[Node]:
    cpus = tree.root.child("cpus") or Node("cpus")
    return [node for node in cpus.children if node.name.split("@")[0] == "cpu"]


def processors(tree: Tree) -> list[int]:
    """What `reg` of each processor's node says, in their order."""
    cells = (tree.root.child("cpus") or Node("cpus")).cells("#address-cells", 1)
    return [int.from_bytes(node.properties.get("reg", b"")[:4 * cells], "big") for node in processor_nodes(tree)]


def compatible(node: Node) -> list[str]:
    """What a node is compatible with, what it is first."""
    text = node.text("compatible")
    return [] if text is None else text.split("\0")


def processor_models(tree: Tree) -> list[str | None]:
    """What the processors are, each model once."""
    return list(dict.fromkeys(next(iter(compatible(node)), None) for node in processor_nodes(tree)))


def controllers(tree: Tree) -> list[str]:
    """The GICs: what their nodes are."""
    found = (each for node in tree.root.walk() if "interrupt-controller" in node.properties for each in compatible(node))
    return [each for each in found if each in (GIC_3, *GIC_2)]


def psci_method(tree: Tree) -> str | None:
    """How PSCI is called. Linux finds its node by what that is compatible with."""
    nodes = [node for node in tree.root.walk() if any(each.startswith("arm,psci") for each in compatible(node))]
    return (nodes[0] if nodes else tree.root.child("psci") or Node("psci")).text("method")


def seeds(tree: Tree) -> list[str]:
    """The properties that are drawn anew for each start."""
    return sorted({name for node in tree.root.walk() for name in node.properties if name in ("kaslr-seed", "rng-seed")})
