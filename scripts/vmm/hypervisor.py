"""What a hypervisor is to rim-manifest: its layout, its words, and facts about it. A module of vmm is one where it has all of this."""
from __future__ import annotations

from collections.abc import Callable
from dataclasses import dataclass, field
from typing import Protocol

from .guest import Blob, Guest, Memory, Processors, Word
from .layout import Row
from .sorting import Grammar, Sorted
from .words import Option


@dataclass(frozen=True)
class Facts:
    """What a hypervisor does, beside the rows of its layout."""

    dtb_align: int                              # of what its devicetree's address is a multiple
    ends_after_dump: bool = False               # whether its program ends once a devicetree is written
    dtb_length: int | None = None               # how long its devicetrees are, where that is always the same
    dtb_is_past_initrd: bool = True
    adds_boot_words: bool = False               # whether it puts words of its own beside the kernel's command line
    no_seeds: str = ""                          # the word without which each start has other seeds
    gic_3: str = ""                             # the word for GIC 3
    hands_over: bool = False                    # whether it hands a kernel and an initrd to firmware that it starts
    bss_apart: bool = False                     # whether the kernel's BSS is made RAM by itself, by `each` of the row ram
    unpacks_gzip: bool = False
    zboot: dict[str, tuple[int, int]] = field(default_factory=dict)     # by which packing, since which version it unpacks an EFI zboot
    host_needs: dict[str, str] = field(default_factory=dict)            # keys that the host's file has to have for it, and why
    dumped_by: str = ""                         # the program from whose devicetrees others are derived, if any are
    # why the devicetree of the second guest is not derived from that of the first, or nothing; the words are the other ones of a dump
    why_not_derived: Callable[[Guest, Guest, list[str]], str] = lambda old, new, kept: ""


@dataclass(frozen=True)
class Approximate:
    """The words of a dump that a plain hypervisor makes of a realm's: the machine, the processor and the other words; and those left out."""

    machine: str
    cpu: str
    kept: list[str]
    left_out: list[str]


class Hypervisor(Protocol):
    """What all of rim-manifest asks of a hypervisor. `HYPERVISORS` of vmm/hypervisors.py names those that there are."""

    NAME: str                   # what the command line calls it
    TITLE: str
    USAGE: str                  # what comes after its options in a line of use
    PROGRAM: str                # a pattern of the names that its program has
    OPTIONS: list[Option]       # the options of rim-manifest that only it has
    TABLE: list[Row]            # where things are, with a kernel
    FIRMWARE: list[Row]         # where things are, with firmware; empty where that is not known
    GRAMMAR: Grammar            # the table of its words, and how they are spelled
    FACTS: Facts

    def sort(self, words: list[str]) -> Sorted:
        """Sorts a whole command line, without the program."""

    def sort_rest(self, words: list[str]) -> Sorted:
        """Sorts words that are beside those of its options."""

    def refuse_before(self, words: list[str]) -> None:
        """Says of words among the options, the first of which is none, what is to be done with them."""

    def read_machine(self, said: dict) -> list[Word]:
        """The machines."""

    def read_cpu(self, said: dict) -> list[Word]:
        """The models of processors."""

    def read_smp(self, said: dict) -> list[Processors]:
        """The numbers of processors."""

    def read_memory(self, said: dict) -> list[Memory]:
        """The sizes of RAM."""

    def check_realm(self, machine: str, others: Sorted) -> None:
        """Refuses words of the machine and of the realm that do not fit."""

    def features(self, cpu: str) -> dict[str, tuple[int | None, ...]]:
        """What the words of a processor say that the host's file says too: by its keys, the values that fit; None first if no value fits too."""

    def processor(self, guest: Guest) -> str | None:
        """What the devicetree says of the processors; None where it is not known."""

    def has_gic_3(self, guest: Guest) -> bool:
        """Whether the words ask for GIC 3."""

    def dump_words(self, guest: Guest, path: str) -> list[str]:
        """The words by which its program writes a devicetree to a path; without kernel, initrd and command line."""

    def needs(self, guest: Guest, kept: list[str]) -> list[str]:
        """Returns what a dump needs that a build machine may lack: KVM, or an object by its name; `kept` are the other words of a dump."""

    def approximated(self, machine: str, cpu: str, kept: list[str], model: str) -> Approximate:
        """Returns the words of a dump without what a build machine lacks, and with another processor."""

    def final_words(self, guest: Guest) -> list[str]:
        """The words of a launch; without kernel, initrd and command line."""

    def load_words(self, guest: Guest, path: Callable[[Blob], str]) -> list[str]:
        """The words for kernel or firmware, initrd and command line; `path` gives that of a file."""
