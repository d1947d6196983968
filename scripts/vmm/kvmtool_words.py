"""What each word of `lkvm run` does. All of it is remembered, and nothing was tried.

For a devicetree lkvm starts the guest itself. So a dump is given no word by which it would open what a running guest has open.
"""
from __future__ import annotations

import re

from outside.faults import WrongWords
from outside.texts import shown

from .sorting import Effect, Entry, Given, Grammar, Realm, Sorted, Takes, spelled, two_dashes
from .words import ALGORITHMS

ALONE = Takes.NOTHING
# How many bytes a personalization value has.
RPV = 64


def read_opens(found: Sorted, given: Given):
    """A device that is in the devicetree, of what a dump may not open."""
    found.drop(given)
    found.opens.append(given)


def read_realm(found: Sorted, given: Given):
    """The words of the realm, each once."""
    before = found.realm or Realm(given.words[0])
    algorithm, value = before.algorithm, before.personalization
    if given.name == "--measurement-algo":
        if algorithm is not None:
            found.refuse(given, "--measurement-algo is given twice, expected once")
        elif given.value not in ALGORITHMS:
            found.refuse(given, f"expected {' or '.join(ALGORITHMS)}")
        algorithm = given.value
    elif given.name == "--realm-pv":
        data = given.value.encode(errors="surrogateescape")
        if value is not None:
            found.refuse(given, "--realm-pv is given twice, expected once")
        elif not 0 < len(data) <= RPV:
            found.refuse(given, f"its value has {len(data)} bytes, expected 1 to {RPV}")
        value = data.ljust(RPV, b"\0").hex()
    found.keep(given)
    source = given.name if algorithm != before.algorithm else before.source
    found.realm = Realm(source, "realm" if given.name == "--realm" else before.name, algorithm, value)


def read_vector_length(found: Sorted, given: Given):
    """The vector length of SVE in bits; with 0 lkvm decides."""
    if not re.fullmatch("[0-9]{1,4}", given.value) or int(given.value) % 128 or int(given.value) > 2048:
        found.refuse(given, "expected a multiple of 128 up to 2048")
    elif int(given.value):
        found.features[str(given)] = {"sve": (True,), "sve_vl": (int(given.value) // 128 - 1,)}
    found.keep(given)


def read_no_vectors(found: Sorted, given: Given):
    found.features[str(given)] = {"sve": (False,)}
    found.keep(given)


def read_counters(found: Sorted, given: Given):
    if not re.fullmatch("[0-9]{1,2}", given.value) or int(given.value) > 31:
        found.refuse(given, "expected a number from 0 to 31")
    else:
        found.features[str(given)] = {"pmu": (True,), "pmu_num_ctrs": (int(given.value),)}
    found.keep(given)


WORDS = [
    Entry(spelled("-c --cpus"), Effect.LAYOUT, "the processors; of several the last counts", key="smp"),
    Entry(spelled("-m --mem"), Effect.LAYOUT, "the size of RAM; of several the last counts", key="memory"),
    Entry(spelled("-k --kernel"), Effect.LAYOUT, "the kernel; of several the last counts", key="kernel"),
    Entry(spelled("-i --initrd"), Effect.LAYOUT, "the initrd; of several the last counts", key="initrd"),
    Entry(spelled("-p --params"), Effect.LAYOUT, "the kernel's command line; of several the last counts", key="append"),
    Entry(spelled("--realm"), Effect.TREE, "the guest is a realm", takes=ALONE, read=read_realm),
    Entry(spelled("--measurement-algo"), Effect.TREE, "the realm's hash algorithm", read=read_realm),
    Entry(spelled("--realm-pv"), Effect.TREE, "the realm's personalization value: the bytes of the text, with zeros up to 64", read=read_realm),
    Entry(spelled("--restricted_mem --pmu --force-pci --virtio-legacy --no-pvtime --nodefaults --no-dhcp"), Effect.TREE,
          "nodes of the devicetree, or words of its command line", takes=ALONE),
    Entry(spelled("--sve-vl"), Effect.TREE, "the vector length, which the host's file says too", read=read_vector_length),
    Entry(spelled("--disable-sve"), Effect.TREE, "no vectors, which the host's file says too", takes=ALONE, read=read_no_vectors),
    Entry(spelled("--pmu-counters"), Effect.TREE, "the event counters, which the host's file says too", read=read_counters),
    Entry(spelled("--disable-mte"), Effect.HARMLESS, "memory tagging, which no realm has", takes=ALONE),
    Entry(spelled("--irqchip --virtio-transport --console"), Effect.TREE, "nodes of the devicetree, or words of its command line"),
    Entry(spelled("-d --disk -n --network --9p --vsock --tty --vfio-pci"), Effect.TREE, "a device, which has a node", read=read_opens),
    Entry(spelled("--rng --balloon"), Effect.TREE, "a device, which has a node", takes=ALONE, read=read_opens),
    Entry(spelled("--name --loglevel --hugetlbfs --dev --vcpu-affinity"), Effect.HARMLESS, "how lkvm itself runs"),
    Entry(spelled("--debug --debug-single-step --debug-ioport --debug-mmio"), Effect.HARMLESS, "how lkvm itself runs", takes=ALONE),
    Entry(spelled("-f --firmware"), Effect.LAYOUT, "the firmware, which is loaded in the kernel's place; of several the last counts", key="firmware"),
    Entry(spelled("--firmware-address"), Effect.LAYOUT, "where the firmware is loaded; of several the last counts", key="firmware_address"),
    Entry(spelled("--flash"), Effect.REFUSED, "a flash for variables: whether a realm has one is not known", "expected firmware that keeps none"),
    Entry(spelled("--dump-dtb"), Effect.REFUSED, "rim-manifest adds it itself", "expected --lkvm PROGRAM, or --dtb with what it wrote"),
    Entry(spelled("--kaslr-seed"), Effect.REFUSED, "the devicetree has a seed then", "expected no such word"),
    Entry(spelled("--aarch32 --nested"), Effect.REFUSED, "no realm has such processors", "expected no such word", ALONE),
]


def spelled_by_lkvm(word: str) -> tuple[str, str | None]:
    """Words as lkvm has them: a short one may have its value right after it."""
    return (word[:2], word[2:]) if re.fullmatch("-[a-z].+", word, re.S) else two_dashes(word)


GRAMMAR = Grammar("lkvm", WORDS, spelled_by_lkvm)


def whole(found: Sorted) -> Sorted:
    """What was sorted, where the words of the realm are with the one that makes it a realm."""
    if found.realm and found.realm.name is None:
        found.faults.append(f"{found.realm.source}: it is of a realm, expected --realm too")
    return found


def sort(words: list[str]) -> Sorted:
    if words[:1] != ["run"]:
        raise WrongWords(f"{shown(words[0]) if words else 'nothing'}: it comes after lkvm, expected run and its words")
    found = GRAMMAR.sort(words[1:], True)
    alone = [given for given in found.unknown if not given.name.startswith("-")]
    if len(alone) == 1 and not {"kernel", "firmware"} & set(found.said):
        found.said["kernel"] = [alone[0].name]
        found.unknown.remove(alone[0])
        found.effects.append((str(alone[0]), Effect.LAYOUT, "the kernel, as the one word that is of no option"))
    return whole(found)


def sort_rest(words: list[str]) -> Sorted:
    return whole(GRAMMAR.sort(words, False))


def refuse_before(words: list[str]):
    GRAMMAR.refuse_before(words)
